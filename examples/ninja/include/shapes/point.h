#pragma once

namespace shapes {

// A place in the plane.
struct Point {
    double x = 0;
    double y = 0;
};

Point operator+(Point a, Point b);
Point operator-(Point a, Point b);
Point operator*(double scale, Point a);

double dot(Point a, Point b);
double cross(Point a, Point b);
double length(Point a);

// The point at distance 1 from the origin, turned to the left from the x axis by this angle.
Point direction(double turn);

}  // namespace shapes
