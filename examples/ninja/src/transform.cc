#include "shapes/transform.h"

#include <utility>

namespace shapes {

namespace {

// A shape that is scaled, and then moved.
class Transformed : public Shape {
public:
    Transformed(std::unique_ptr<Shape> shape, double scale, Point shift)
        : shape_(std::move(shape)), scale_(scale), shift_(shift) {}

    std::string name() const override { return shape_->name(); }
    double area() const override { return scale_ * scale_ * shape_->area(); }
    double perimeter() const override { return scale_ * shape_->perimeter(); }

    Bounds bounds() const override {
        const Bounds bounds = shape_->bounds();
        return {scale_ * bounds.low + shift_, scale_ * bounds.high + shift_};
    }

    bool contains(Point point) const override { return shape_->contains(1 / scale_ * (point - shift_)); }

private:
    std::unique_ptr<Shape> shape_;
    double scale_;
    Point shift_;
};

}  // namespace

std::unique_ptr<Shape> moved(std::unique_ptr<Shape> shape, Point shift) {
    return std::make_unique<Transformed>(std::move(shape), 1, shift);
}

std::unique_ptr<Shape> scaled(std::unique_ptr<Shape> shape, double scale) {
    return std::make_unique<Transformed>(std::move(shape), scale, Point{0, 0});
}

}  // namespace shapes
