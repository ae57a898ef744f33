#include "shapes/triangle.h"

namespace shapes {

Polygon triangle(Point a, Point b, Point c) { return Polygon("triangle", {a, b, c}); }

}  // namespace shapes
