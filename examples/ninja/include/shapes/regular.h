#pragma once

#include "shapes/polygon.h"

namespace shapes {

// As many corners on a circle, at equal distances.
Polygon regular(int corners, Point center, double radius);

}  // namespace shapes
