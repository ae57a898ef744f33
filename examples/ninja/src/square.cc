#include "shapes/square.h"

namespace shapes {

Polygon rectangle(Point low, double width, double height) {
    return Polygon("rectangle", {low, low + Point{width, 0}, low + Point{width, height}, low + Point{0, height}});
}

Polygon square(Point low, double side) {
    return Polygon("square", {low, low + Point{side, 0}, low + Point{side, side}, low + Point{0, side}});
}

}  // namespace shapes
