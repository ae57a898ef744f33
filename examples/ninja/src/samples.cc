#include "shapes/samples.h"

#include "sample_lines.h"
#include "shapes/reader.h"

namespace shapes {

Shapes samples() {
    Shapes shapes;
    for (const char* line : sample_lines) shapes.push_back(read_shape(line));
    return shapes;
}

}  // namespace shapes
