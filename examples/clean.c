#include "map.h"
#include "plan.h"
#include "runs.h"
#include <stdio.h>

/* why a job did not come to its end (AN5185 table 14), and what runs now */
static void explain(struct result result, bool stack_runs) {
    static const struct {
        uint8_t error;
        const char *meaning;
    } errors[] = {{0x01, "no image found"}, {0x02, "image corrupted"}, {0x03, "image not authentic"}, {0x04, "not enough space"},
                  {0x11, "older version"},  {0x00, "unknown"}};
    size_t i = 0;
    while (errors[i].error != 0 && errors[i].error != result.error)
        i++;
    if (result.outcome == NO_ROOM)
        printf("  The updater: the image does not fit below the boundary.\n");
    if (result.outcome == NO_ANSWER)
        printf("  The updater: no answer.\n");
    if (result.outcome == TURNED_DOWN)
        printf("  The device turned it down: error %02X, %s. %s runs.\n", result.error, errors[i].meaning, stack_runs ? "The old stack" : "FUS");
}

/* the stores and the flash that the rules say, and the stack that was to be installed; it runs when the device is switched on again */
static bool judge(const char *name, const struct device *before, const struct image *image, struct result result) {
    struct plan plan = plan_of(before, image);
    const struct account *account = bench_account();
    const struct device *device = bench_device();
    bool counted = account->stores == plan_stores(&plan) && !account->miscounted && !account->refused;
    bool installed = boundary_of(device) == plan.q && version_of(device) == image_version(image);
    bool runs = bench_restart();
    bool good = result.outcome == DONE && counted && installed && runs && plan_leaves(&plan, before, image, device->flash);
    printf("\n  %s: b = %u sectors from %u to %u, c = %u cleared; %u stores, by 3b + 2c + 1: %u. %s.\n", name, plan.b, plan.p, plan.q, plan.c,
           account->stores, plan_stores(&plan), good ? "Flash, boundary and version are as they should be" : "WRONG");
    if (!good)
        explain(result, runs);
    return good;
}

/* half of the image copied, all of it, half of the rest cleared */
static void watch(const void *from, uint32_t stores) {
    const struct scene *scene = from;
    struct plan plan = plan_of(&scene->with_old, &scene->new_stack);
    char caption[64];
    if (stores != 3 * (plan.b / 2) && stores != 3 * plan.b && stores != 3 * plan.b + 2 * (plan.c / 2))
        return;
    snprintf(caption, sizeof caption, "After store %u of %u", stores, plan_stores(&plan));
    map_print(caption, &scene->old_stack, &scene->new_stack);
}

static struct result install(const struct image *image) {
    return updater_upgrade(image->bytes, image->size);
}

bool clean_run(struct scene *scene) {
    static struct device empty;
    printf("1. A first stack on an empty device, then an upgrade that replaces it\n\n");
    map_legend();
    bench_begin();
    empty = *bench_device();
    bool good = judge("First stack", &empty, &scene->old_stack, install(&scene->old_stack));
    scene->with_old = *bench_device();
    bench_restore(&scene->with_old);
    map_print("Before: the old stack runs", &scene->old_stack, &scene->new_stack);
    updater_load(scene->new_stack.bytes, scene->new_stack.size);
    map_print("The image is loaded", &scene->old_stack, &scene->new_stack);
    bench_watch(watch, scene);
    struct result result = install(&scene->new_stack);
    bench_watch(NULL, NULL);
    if (result.outcome == DONE)
        map_print("After the last: the new stack runs", &scene->new_stack, &scene->new_stack);
    good = judge("Upgrade", &scene->with_old, &scene->new_stack, result) && good;
    scene->with_new = *bench_device();
    return good;
}
