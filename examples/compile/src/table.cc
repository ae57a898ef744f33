// Includes a file by a macro: which one is known to the compiler alone, so that this source needs all files of the project.
#define SHAPES_TABLE "table.inc"

static const char *const names[] = {
#include SHAPES_TABLE
};

int table_size() { return sizeof names / sizeof *names; }
