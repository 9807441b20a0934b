/* A picture of which file has which sector. */
#ifndef CARD_SVG_H
#define CARD_SVG_H

#include "card_volume.h"

#include <stdio.h>

/* Draws a mounted volume. Errors of the output are left for the caller to ask for. */
void svg_draw(const struct volume *volume, FILE *out);

#endif
