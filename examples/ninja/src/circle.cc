#include "shapes/circle.h"

#include "numbers.h"

namespace shapes {

Circle::Circle(Point center, double radius) : Ellipse(center, radius, radius), radius_(radius) {}

std::string Circle::name() const { return "circle"; }
double Circle::perimeter() const { return 2 * pi * radius_; }

}  // namespace shapes
