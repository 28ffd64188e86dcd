/* The demo: an updater plays a whole upgrade against the stand-in, clean, with damaged commands, and with the power cut in every store.
     demo           with images of its own
     demo IMAGE     with this image as the new stack
   Its status is 0 if all was as it should be, 1 if not, and 2 if it could not be tried. */
#include "runs.h"
#include <stdio.h>

/* the images, in sectors and in bytes; the last sector of each is not full */
enum { OLD_SECTORS = 20, OLD_SIZE = OLD_SECTORS * SECTOR - 1000, NEW_SIZE = 30 * SECTOR - 2000 };

/* the new stack from a file, or made here */
static bool choose(struct image *image, const char *path) {
    uint32_t most = COUNT - OLD_SECTORS - 1;
    if (!path) {
        image_make(image, NEW_SIZE, 2);
        return true;
    }
    if (!image_read(image, path))
        return false;
    if (image_sectors(image) > most)
        fprintf(stderr, "%s: too large: it has %u sectors, and there is room for %u below the old stack\n", path, image_sectors(image), most);
    return image_sectors(image) <= most;
}

int main(int count, char **words) {
    static struct scene scene;
    struct tally tally = {0, 0};
    if (count > 2 || (count == 2 && words[1][0] == '-')) {
        fprintf(stderr, "usage: %s [IMAGE]\n", words[0]);
        return 2;
    }
    image_make(&scene.old_stack, OLD_SIZE, 1);
    if (!choose(&scene.new_stack, count == 2 ? words[1] : NULL))
        return 2;
    if (!clean_run(&scene)) {
        printf("\nThe upgrade did not end as it should: nothing more was tried.\n");
        return 1;
    }
    putchar('\n');
    bool damage = damage_run(&scene);
    putchar('\n');
    bool cuts = cuts_run(&scene, &tally);
    printf("\n%u jobs cut in a store, %u ended as the job never cut.%s\n", tally.jobs, tally.same,
           damage && cuts ? "" : " Not all was as it should be: see WRONG above.");
    return damage && cuts ? 0 : 1;
}
