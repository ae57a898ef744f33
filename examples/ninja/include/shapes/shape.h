#pragma once

#include <memory>
#include <string>
#include <vector>

#include "shapes/bounds.h"
#include "shapes/point.h"

namespace shapes {

class Shape {
public:
    virtual ~Shape() = default;
    virtual std::string name() const = 0;
    virtual double area() const = 0;
    virtual double perimeter() const = 0;
    virtual Bounds bounds() const = 0;
    virtual bool contains(Point point) const = 0;
};

using Shapes = std::vector<std::unique_ptr<Shape>>;

double total_area(const Shapes& shapes);

// What holds all of them; there has to be one.
Bounds total_bounds(const Shapes& shapes);

}  // namespace shapes
