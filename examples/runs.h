/* The demo's three runs. Each prints its part and answers whether all of it was as it should be. */
#ifndef RUNS_H
#define RUNS_H

#include "image.h"
#include "updater.h"

/* Two stacks, and the device with each of them installed by a job that was never cut, then switched off and on: the stack runs. */
struct scene {
    struct image old_stack, new_stack;
    struct device with_old, with_new;
};

/* The old stack on an empty device, then the upgrade to the new one; it fills in both devices. */
bool clean_run(struct scene *scene);

/* Every kind of damaged command, and what is then read in the mailbox. */
bool damage_run(const struct scene *scene);

/* how many jobs were cut, and how many of them ended as the job never cut */
struct tally {
    uint32_t jobs, same;
};

/* The power cut in every store of the upgrade, and of a delete; it adds to the tally. */
bool cuts_run(const struct scene *scene, struct tally *tally);

#endif
