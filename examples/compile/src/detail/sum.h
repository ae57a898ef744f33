// Goes down and up again: the compiler looks for platform, so that directory has to be there, and none of its files.
#pragma once
#include "../platform/../report.h"
#include <initializer_list>
#include <shapes/shape.h>

inline Report sum(std::initializer_list<const Shape *> shapes) {
    static_assert(most_shapes == 1'000, "the limit is the forced one");
    Report report{0, 0.0};
    for (const Shape *shape : shapes) {
        if (report.shapes == most_shapes) break;
        report.shapes += 1;
        report.area += shape->area();
    }
    return report;
}
