#include "shapes/ellipse.h"

#include <cmath>

#include "numbers.h"

namespace shapes {

Ellipse::Ellipse(Point center, double across, double up) : center_(center), across_(across), up_(up) {}

std::string Ellipse::name() const { return "ellipse"; }
double Ellipse::area() const { return pi * across_ * up_; }

// There is no closed form: this is Ramanujan's approximation.
double Ellipse::perimeter() const {
    return pi * (3 * (across_ + up_) - std::sqrt((3 * across_ + up_) * (across_ + 3 * up_)));
}

Bounds Ellipse::bounds() const {
    const Point reach{across_, up_};
    return {center_ - reach, center_ + reach};
}

bool Ellipse::contains(Point point) const {
    const Point from_center = point - center_;
    return length({from_center.x / across_, from_center.y / up_}) <= 1;
}

}  // namespace shapes
