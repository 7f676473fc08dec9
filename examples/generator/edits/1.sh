# The first build.
