#include "shapes/table.h"

#include <iomanip>
#include <sstream>
#include <stdexcept>

#include "units.h"

namespace shapes {

static double size_of(const std::string& name) {
    for (const Unit& unit : units) {
        if (name == unit.name) return unit.meters;
    }
    throw std::invalid_argument("no unit " + name);
}

std::string table_of(const Shapes& shapes, const std::string& unit) {
    const double size = size_of(unit);
    std::ostringstream table;
    table << std::fixed << std::setprecision(3);
    for (const auto& shape : shapes) {
        table << std::left << std::setw(12) << shape->name() << std::right << std::setw(12)
              << shape->area() / (size * size) << std::setw(12) << shape->perimeter() / size << '\n';
    }
    return table.str();
}

}  // namespace shapes
