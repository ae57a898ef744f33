#pragma once

#include "shapes/shape.h"

namespace shapes {

// An ellipse along the axes, which reaches so far across and up from its center.
class Ellipse : public Shape {
public:
    Ellipse(Point center, double across, double up);
    std::string name() const override;
    double area() const override;
    double perimeter() const override;
    Bounds bounds() const override;
    bool contains(Point point) const override;

private:
    Point center_;
    double across_;
    double up_;
};

}  // namespace shapes
