#include "shapes/shape.h"

namespace shapes {

double total_area(const Shapes& shapes) {
    double sum = 0;
    for (const auto& shape : shapes) sum += shape->area();
    return sum;
}

Bounds total_bounds(const Shapes& shapes) {
    Bounds total = shapes.front()->bounds();
    for (const auto& shape : shapes) {
        const Bounds bounds = shape->bounds();
        total = total.with(bounds.low).with(bounds.high);
    }
    return total;
}

}  // namespace shapes
