/* What a probe logger links of the archive: it calls isn_hex_iso_edges and nothing else. bench/size links it and looks at its size. */
#include "isnemgul.h"

static const double center[3], values[8] = {-1, 3, 1, 1, 1, 1, 1, 1};
static uint32_t index[1];
static double positions[36];

uint32_t logger(void) {
    return isn_hex_iso_edges(center, 1, values, index, positions);
}
