#include "shapes/polygon.h"

#include <cmath>
#include <utility>

#include "edges.h"

namespace shapes {

Polygon::Polygon(std::string name, std::vector<Point> corners)
    : name_(std::move(name)), corners_(std::move(corners)) {}

std::string Polygon::name() const { return name_; }

double Polygon::area() const {
    double twice = 0;
    for_each_edge(corners_, [&](Point from, Point to) { twice += cross(from, to); });
    return std::fabs(twice) / 2;
}

double Polygon::perimeter() const {
    double sum = 0;
    for_each_edge(corners_, [&](Point from, Point to) { sum += length(to - from); });
    return sum;
}

Bounds Polygon::bounds() const {
    Bounds bounds = bounds_at(corners_.front());
    for (Point corner : corners_) bounds = bounds.with(corner);
    return bounds;
}

bool Polygon::contains(Point point) const {
    bool inside = false;
    for_each_edge(corners_, [&](Point from, Point to) { inside ^= is_crossed(from, to, point); });
    return inside;
}

}  // namespace shapes
