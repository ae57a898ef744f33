#pragma once

#include "shapes/polygon.h"

namespace shapes {

Polygon triangle(Point a, Point b, Point c);

}  // namespace shapes
