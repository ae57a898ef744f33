// Found by -iquote.
#pragma once

inline const char *project_name() { return SHAPES_NAME; }
