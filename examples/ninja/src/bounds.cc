#include "shapes/bounds.h"

#include <algorithm>

namespace shapes {

bool Bounds::contains(Point point) const {
    return low.x <= point.x && point.x <= high.x && low.y <= point.y && point.y <= high.y;
}

Bounds Bounds::with(Point point) const {
    return {{std::min(low.x, point.x), std::min(low.y, point.y)},
            {std::max(high.x, point.x), std::max(high.y, point.y)}};
}

double Bounds::width() const { return high.x - low.x; }
double Bounds::height() const { return high.y - low.y; }

Bounds bounds_at(Point point) { return {point, point}; }

}  // namespace shapes
