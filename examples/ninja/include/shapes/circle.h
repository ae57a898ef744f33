#pragma once

#include "shapes/ellipse.h"

namespace shapes {

// An ellipse that reaches as far across as up.
class Circle : public Ellipse {
public:
    Circle(Point center, double radius);
    std::string name() const override;
    double perimeter() const override;

private:
    double radius_;
};

}  // namespace shapes
