#pragma once

#include <cstddef>
#include <vector>

#include "shapes/point.h"

namespace shapes {

template <typename Visit>
void for_each_edge(const std::vector<Point>& corners, Visit visit) {
    for (std::size_t i = 0; i < corners.size(); ++i) visit(corners[i], corners[(i + 1) % corners.size()]);
}

// Whether a ray from the point to the right crosses the edge.
bool is_crossed(Point from, Point to, Point point);

}  // namespace shapes
