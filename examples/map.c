#include "map.h"
#include "bytes.h"
#include <stdio.h>
#include <string.h>

enum { ROW = 61 };

void map_legend(void) {
    printf("  One character a sector: . erased   i image   S installed stack   x spoiled   # other (the application)\n");
}

/* is it any of the image's sectors? */
static bool of_image(const struct image *image, const uint8_t *sector) {
    uint32_t number = 0;
    while (number < image_sectors(image) && !image_holds(image, number, sector))
        number++;
    return number < image_sectors(image);
}

static char character(uint32_t number, const struct image *stack, const struct image *image) {
    const uint8_t *sector = bench_device()->flash + (size_t)number * SECTOR;
    uint32_t boundary = boundary_of(bench_device());
    if (all(sector, SECTOR, 0xFF))
        return '.';
    if (number >= boundary && image_holds(stack, number - boundary, sector))
        return 'S';
    if (of_image(image, sector))
        return 'i';
    return memcmp(sector, bench_filler(), SECTOR) == 0 ? 'x' : '#';
}

void map_print(const char *caption, const struct image *stack, const struct image *image) {
    printf("\n  %s\n", caption);
    for (uint32_t row = 0; row < COUNT; row += ROW) {
        printf("  %3u ", row);
        for (uint32_t number = row; number < row + ROW; number++)
            putchar(character(number, stack, image));
        putchar('\n');
    }
}
