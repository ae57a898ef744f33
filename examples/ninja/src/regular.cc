#include "shapes/regular.h"

#include "numbers.h"

namespace shapes {

Polygon regular(int corners, Point center, double radius) {
    std::vector<Point> points;
    for (int i = 0; i < corners; ++i) points.push_back(center + radius * direction(2 * pi * i / corners));
    return Polygon("regular " + std::to_string(corners), points);
}

}  // namespace shapes
