// Included on several ways: it is one input.
#pragma once

struct Shape {
    virtual ~Shape() = default;
    virtual double area() const = 0;
};
