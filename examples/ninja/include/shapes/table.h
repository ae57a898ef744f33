#pragma once

#include <string>

#include "shapes/shape.h"

namespace shapes {

// A line for each shape: its name, its area and its perimeter, in a unit.
std::string table_of(const Shapes& shapes, const std::string& unit);

}  // namespace shapes
