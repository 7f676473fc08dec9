struct person {
    const char *name;
    long age;
};
