// Found by -idirafter, behind the other units.h.
#pragma once

constexpr double two = 2.0;
