// Asks whether a file is there: fast.h has to be found although no include names it.
#pragma once
#if __has_include(<shapes/fast.h>)
#define SHAPES_PI 3.14159265358979
#else
#define SHAPES_PI 3.0
#endif
#if __has_include(<shapes/exact.h>)
#error "there is no such file"
#endif

struct Report {
    int shapes;
    double area;
};

int table_size();
