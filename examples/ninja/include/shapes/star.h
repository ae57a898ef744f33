#pragma once

#include "shapes/polygon.h"

namespace shapes {

// As many tips on the outer circle, the first one above the center, and as many corners between them on the inner one.
Polygon star(int tips, Point center, double outer, double inner);

}  // namespace shapes
