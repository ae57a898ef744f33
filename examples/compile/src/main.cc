// The source: it includes quoted and angled names, a generated header, and one file in a branch that is never taken.
#include "detail/sum.h"
#include "names.h"
#include "version.h"
#include <cstdio>
#include <shapes/circle.h>
#include <shapes/square.h>
#include <units.h>

#ifdef SHAPES_NEVER_DEFINED
#include "inactive.h"
#endif

// A raw literal: no comment begins in it, and its second line is no directive, so nothing includes unreached.h.
static const char *const usage = R"(usage: shapes /* takes no words
#include "unreached.h"
)";

int main(int count, char **) {
    if (count > 1) {
        std::fputs(usage, stderr);
        return 2;
    }
    const Circle circle(1);
    const Square square(2);
    const Square other(2);
    const Report report = sum({&circle, &square, &other});
    std::printf("%s %s: %d shapes, half of their area is %.2f\n", project_name(), SHAPES_VERSION, report.shapes,
                halved(report.area));
    return table_size() == 2 ? 0 : 1;
}
