// Names a file by the directory of -isystem, with a comment before the name and the line cut in two.
#pragma once
#include /* the same file as in circle.h */ \
    <shapes/shape.h>

struct Square : Shape {
    explicit Square(double side) : side(side) {}
    double area() const override { return side * side; }
    double side;
};
