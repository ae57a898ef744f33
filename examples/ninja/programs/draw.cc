#include <iostream>
#include <sstream>

#include "shapes/canvas.h"
#include "shapes/samples.h"

int main() {
    const shapes::Shapes shapes = shapes::samples();
    shapes::Canvas canvas(60, 16, shapes::total_bounds(shapes));
    std::ostringstream legend;
    char ink = 'a';
    for (const auto& shape : shapes) {
        canvas.draw(*shape, ink);
        legend << ink << ' ' << shape->name() << '\n';
        ++ink;
    }
    std::cout << canvas.text() << legend.str();
}
