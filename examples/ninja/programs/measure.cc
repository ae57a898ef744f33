#include <iostream>

#include "shapes/samples.h"
#include "shapes/table.h"

int main(int count, char** words) {
    const std::string unit = count > 1 ? words[1] : "meter";
    const shapes::Shapes shapes = shapes::samples();
    std::cout << shapes::table_of(shapes, unit) << "total area in square meters: " << shapes::total_area(shapes) << '\n';
}
