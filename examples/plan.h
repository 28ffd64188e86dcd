/* A job by the rules of paper 01, and not by what the device does: its stores and the flash that it ends with. */
#ifndef PLAN_H
#define PLAN_H

#include "image.h"

/* The image lies at sector p and has b sectors, which go to q onward; c sectors are cleared. A delete has b = 0. */
struct plan {
    uint32_t boundary, p, b, q, c;
};

/* The plan of an upgrade to this image, loaded where the updater loads it; NULL: of a delete. */
struct plan plan_of(const struct device *device, const struct image *image);

/* 3b + 2c + 1 */
uint32_t plan_stores(const struct plan *plan);

/* Does this flash stand as the job should leave the device's? */
bool plan_leaves(const struct plan *plan, const struct device *device, const struct image *image, const uint8_t *flash);

#endif
