// Found by -I, and goes on to the next file of its name.
#pragma once
#include_next <units.h>

inline double halved(double value) { return value / two; }
