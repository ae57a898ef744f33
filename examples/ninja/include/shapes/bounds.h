#pragma once

#include "shapes/point.h"

namespace shapes {

// A rectangle along the axes.
struct Bounds {
    Point low;
    Point high;

    bool contains(Point point) const;
    Bounds with(Point point) const;
    double width() const;
    double height() const;
};

Bounds bounds_at(Point point);

}  // namespace shapes
