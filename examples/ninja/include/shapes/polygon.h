#pragma once

#include "shapes/shape.h"

namespace shapes {

// Corners in one direction, without crossings.
class Polygon : public Shape {
    std::string name_;
    std::vector<Point> corners_;

public:
    Polygon(std::string name, std::vector<Point> corners);
    std::string name() const override;
    double area() const override;
    double perimeter() const override;
    Bounds bounds() const override;
    bool contains(Point point) const override;
};

}  // namespace shapes
