/* A map of the flash, one character a sector. */
#ifndef MAP_H
#define MAP_H

#include "image.h"

/* what the characters mean, in one line */
void map_legend(void);

/* The device as it stands, given which stack is installed and which image is to be installed. */
void map_print(const char *caption, const struct image *stack, const struct image *image);

#endif
