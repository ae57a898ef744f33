#pragma once

#include "shapes/shape.h"

namespace shapes {

// The shapes of samples.txt, which both programs show.
Shapes samples();

}  // namespace shapes
