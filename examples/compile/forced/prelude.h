// Included before the source, by -include.
#pragma once
#include "limits.h"

#define SHAPES_NAME "shapes"
