/* Compiles isc.h alone, as C++17, with the checks of header.c: they are valid in both languages. */
#include "isc.h"
#include "header.c"

static_assert(sizeof(isc_place) == 2 * sizeof(size_t), "isc_place is two sizes");
static_assert(sizeof(isc_part) == sizeof(const uint8_t *) + sizeof(size_t), "isc_part is a pointer and a size");
static_assert(sizeof(isc_show_header(nullptr, 0, nullptr, 0, nullptr, 0, 1)) == sizeof(isc_part),
              "a header is shown as a part");
