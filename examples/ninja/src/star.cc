#include "shapes/star.h"

#include "numbers.h"

namespace shapes {

Polygon star(int tips, Point center, double outer, double inner) {
    std::vector<Point> points;
    for (int i = 0; i < tips; ++i) {
        const double turn = pi / 2 + 2 * pi * i / tips;
        points.push_back(center + outer * direction(turn));
        points.push_back(center + inner * direction(turn + pi / tips));
    }
    return Polygon("star " + std::to_string(tips), points);
}

}  // namespace shapes
