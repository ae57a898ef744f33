#pragma once

#include "shapes/polygon.h"

namespace shapes {

Polygon square(Point low, double side);
Polygon rectangle(Point low, double width, double height);

}  // namespace shapes
