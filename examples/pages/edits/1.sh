# The first build: there is nothing to build from.
