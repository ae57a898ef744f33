#include "shapes/reader.h"

#include <cstddef>
#include <sstream>
#include <stdexcept>

#include "shapes/circle.h"
#include "shapes/ellipse.h"
#include "shapes/regular.h"
#include "shapes/square.h"
#include "shapes/star.h"
#include "shapes/transform.h"
#include "shapes/triangle.h"

namespace shapes {

using Numbers = std::vector<double>;

static Numbers read_numbers(std::istream& words, std::size_t count) {
    Numbers numbers(count);
    for (double& number : numbers) {
        if (!(words >> number)) throw std::invalid_argument("a number is missing");
    }
    return numbers;
}

static std::unique_ptr<Shape> read(std::istream& words) {
    std::string kind;
    words >> kind;
    if (kind == "circle") {
        const Numbers n = read_numbers(words, 3);
        return std::make_unique<Circle>(Point{n[0], n[1]}, n[2]);
    }
    if (kind == "ellipse") {
        const Numbers n = read_numbers(words, 4);
        return std::make_unique<Ellipse>(Point{n[0], n[1]}, n[2], n[3]);
    }
    if (kind == "triangle") {
        const Numbers n = read_numbers(words, 6);
        return std::make_unique<Polygon>(triangle({n[0], n[1]}, {n[2], n[3]}, {n[4], n[5]}));
    }
    if (kind == "square") {
        const Numbers n = read_numbers(words, 3);
        return std::make_unique<Polygon>(square({n[0], n[1]}, n[2]));
    }
    if (kind == "rectangle") {
        const Numbers n = read_numbers(words, 4);
        return std::make_unique<Polygon>(rectangle({n[0], n[1]}, n[2], n[3]));
    }
    if (kind == "regular") {
        const Numbers n = read_numbers(words, 4);
        return std::make_unique<Polygon>(regular(static_cast<int>(n[0]), {n[1], n[2]}, n[3]));
    }
    if (kind == "star") {
        const Numbers n = read_numbers(words, 5);
        return std::make_unique<Polygon>(star(static_cast<int>(n[0]), {n[1], n[2]}, n[3], n[4]));
    }
    if (kind == "moved") {
        const Numbers n = read_numbers(words, 2);
        return moved(read(words), {n[0], n[1]});
    }
    if (kind == "scaled") {
        const Numbers n = read_numbers(words, 1);
        return scaled(read(words), n[0]);
    }
    throw std::invalid_argument("no shape " + kind);
}

std::unique_ptr<Shape> read_shape(const std::string& line) {
    std::istringstream words(line);
    auto shape = read(words);
    std::string more;
    if (words >> more) throw std::invalid_argument("one word too many: " + more);
    return shape;
}

}  // namespace shapes
