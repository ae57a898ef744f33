#pragma once

#include <string>
#include <vector>

#include "shapes/shape.h"

namespace shapes {

// A grid of characters.
class Canvas {
public:
    Canvas(int columns, int rows, Bounds view);
    void draw(const Shape& shape, char ink);
    std::string text() const;

private:
    Point middle_of(int column, int row) const;

    int columns_;
    int rows_;
    Bounds view_;
    std::vector<std::string> lines_;
};

}  // namespace shapes
