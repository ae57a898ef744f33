#include "edges.h"

namespace shapes {

bool is_crossed(Point from, Point to, Point point) {
    if ((from.y > point.y) == (to.y > point.y)) return false;
    return point.x < (to.x - from.x) * (point.y - from.y) / (to.y - from.y) + from.x;
}

}  // namespace shapes
