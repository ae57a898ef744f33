#pragma once

#include "shapes/shape.h"

namespace shapes {

std::unique_ptr<Shape> moved(std::unique_ptr<Shape> shape, Point shift);

// By a scale above 0; the origin stays where it is.
std::unique_ptr<Shape> scaled(std::unique_ptr<Shape> shape, double scale);

}  // namespace shapes
