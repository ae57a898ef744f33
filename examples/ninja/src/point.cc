#include "shapes/point.h"

#include <cmath>

namespace shapes {

Point operator+(Point a, Point b) { return {a.x + b.x, a.y + b.y}; }
Point operator-(Point a, Point b) { return {a.x - b.x, a.y - b.y}; }
Point operator*(double scale, Point a) { return {scale * a.x, scale * a.y}; }

double dot(Point a, Point b) { return a.x * b.x + a.y * b.y; }
double cross(Point a, Point b) { return a.x * b.y - a.y * b.x; }
double length(Point a) { return std::sqrt(dot(a, a)); }

Point direction(double turn) { return {std::cos(turn), std::sin(turn)}; }

}  // namespace shapes
