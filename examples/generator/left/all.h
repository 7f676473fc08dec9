#include "point.h"
#include "person.h"
