#include "image.h"
#include "bytes.h"
#include <stdio.h>
#include <string.h>

/* where the header's words are, and where the body begins */
enum { SIZE_AT = 8, VERSION_AT = 12, SUM_AT = 16, BODY_AT = 84 };

static const uint8_t mark[5] = {'B', 'N', 'I', 1, 0};

void image_make(struct image *image, uint32_t size, uint32_t version) {
    static const uint8_t kind_seal_tag[3] = {1, 1, 0};
    uint32_t sum = 0;
    memset(image->bytes, 0, BODY_AT);
    memcpy(image->bytes, mark, sizeof mark);
    memcpy(image->bytes + sizeof mark, kind_seal_tag, sizeof kind_seal_tag);
    noise(image->bytes + BODY_AT, size - BODY_AT, version);
    for (uint32_t at = BODY_AT; at < size; at += 4)
        sum += word(image->bytes + at);
    put_word(image->bytes + SIZE_AT, size);
    put_word(image->bytes + VERSION_AT, version);
    put_word(image->bytes + SUM_AT, sum);
    image->size = size;
}

bool image_read(struct image *image, const char *path) {
    FILE *file = fopen(path, "rb");
    if (!file) {
        fprintf(stderr, "%s: can't be opened\n", path);
        return false;
    }
    size_t length = fread(image->bytes, 1, sizeof image->bytes, file);
    bool more = fgetc(file) != EOF, broken = ferror(file);
    fclose(file);
    if (broken)
        fprintf(stderr, "%s: can't be read\n", path);
    else if (length < BODY_AT || memcmp(image->bytes, mark, sizeof mark) != 0)
        fprintf(stderr, "%s: no bench image: it does not begin with the mark BNI, version 1 and a whole header\n", path);
    else if (more)
        fprintf(stderr, "%s: too large: it has more than %d bytes, all the flash below FUS\n", path, FLASH);
    else if (word(image->bytes + SIZE_AT) != length)
        fprintf(stderr, "%s: no whole bench image: it has %u bytes, and its header says %u\n", path, (unsigned)length,
                (unsigned)word(image->bytes + SIZE_AT));
    else {
        image->size = (uint32_t)length;
        return true;
    }
    return false;
}

uint32_t image_sectors(const struct image *image) {
    return image->size / SECTOR + (image->size % SECTOR != 0);
}

uint32_t image_version(const struct image *image) {
    return word(image->bytes + VERSION_AT);
}

void image_put(const struct image *image, uint8_t *flash, uint32_t sector) {
    uint8_t *at = flash + (size_t)sector * SECTOR;
    memset(at, 0xFF, (size_t)image_sectors(image) * SECTOR);
    memcpy(at, image->bytes, image->size);
}

bool image_holds(const struct image *image, uint32_t number, const uint8_t *sector) {
    if (number >= image_sectors(image))
        return false;
    uint32_t at = number * SECTOR, own = image->size - at < SECTOR ? image->size - at : SECTOR;
    return memcmp(sector, image->bytes + at, own) == 0 && all(sector + own, SECTOR - own, 0xFF);
}
