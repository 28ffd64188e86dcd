/* Bench images: one made here, or one read from a file. */
#ifndef IMAGE_H
#define IMAGE_H

#include "bench.h"

struct image {
    uint32_t size;
    uint8_t bytes[FLASH];
};

/* Makes a sealed image with no tag, its body noise. */
void image_make(struct image *image, uint32_t size, uint32_t version);

/* Reads an image from a file; false: it says why not. What else may be wrong with an image, the device tells. */
bool image_read(struct image *image, const char *path);

/* how many sectors it fills, and its version */
uint32_t image_sectors(const struct image *image);
uint32_t image_version(const struct image *image);

/* Writes it from this sector on, and 0xFF behind its end to the end of its last sector. */
void image_put(const struct image *image, uint8_t *flash, uint32_t sector);

/* Does this sector hold the image's sector of that number, as image_put writes it? */
bool image_holds(const struct image *image, uint32_t number, const uint8_t *sector);

#endif
