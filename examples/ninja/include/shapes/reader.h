#pragma once

#include "shapes/shape.h"

namespace shapes {

// The shape that a line names, such as `circle 2 2 1.5` or `moved 4 0 circle 2 2 1.5`.
std::unique_ptr<Shape> read_shape(const std::string& line);

}  // namespace shapes
