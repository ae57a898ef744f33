#include "shapes/canvas.h"

namespace shapes {

Canvas::Canvas(int columns, int rows, Bounds view)
    : columns_(columns), rows_(rows), view_(view), lines_(rows, std::string(columns, '.')) {}

Point Canvas::middle_of(int column, int row) const {
    return {view_.low.x + (column + 0.5) * view_.width() / columns_,
            view_.high.y - (row + 0.5) * view_.height() / rows_};
}

void Canvas::draw(const Shape& shape, char ink) {
    for (int row = 0; row < rows_; ++row) {
        for (int column = 0; column < columns_; ++column) {
            if (shape.contains(middle_of(column, row))) lines_[row][column] = ink;
        }
    }
}

std::string Canvas::text() const {
    std::string text;
    for (const std::string& line : lines_) text += line + '\n';
    return text;
}

}  // namespace shapes
