// Names the file beside it.
#pragma once
#include "shape.h"

struct Circle : Shape {
    explicit Circle(double radius) : radius(radius) {}
    double area() const override { return SHAPES_PI * radius * radius; }
    double radius;
};
