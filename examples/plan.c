#include "plan.h"
#include <string.h>

/* cleared is what held image or old stack and lies below q */
static bool cleared(const struct plan *plan, uint32_t sector) {
    bool held_image = sector >= plan->p && sector < plan->p + plan->b, held_stack = sector >= plan->boundary;
    return sector < plan->q && (held_image || held_stack);
}

struct plan plan_of(const struct device *device, const struct image *image) {
    struct plan plan = {.boundary = boundary_of(device), .b = image ? image_sectors(image) : 0};
    plan.p = image ? plan.boundary - plan.b - 1 : 0;
    plan.q = COUNT - plan.b;
    for (uint32_t sector = 0; sector < COUNT; sector++)
        plan.c += cleared(&plan, sector);
    return plan;
}

uint32_t plan_stores(const struct plan *plan) {
    return 3 * plan->b + 2 * plan->c + 1;
}

bool plan_leaves(const struct plan *plan, const struct device *device, const struct image *image, const uint8_t *flash) {
    static uint8_t wanted[FLASH];
    memcpy(wanted, device->flash, FLASH);
    for (uint32_t sector = 0; sector < COUNT; sector++)
        if (cleared(plan, sector))
            memset(wanted + (size_t)sector * SECTOR, 0xFF, SECTOR);
    if (image)
        image_put(image, wanted, plan->q);
    return memcmp(flash, wanted, FLASH) == 0;
}
