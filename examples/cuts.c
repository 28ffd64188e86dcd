#include "map.h"
#include "plan.h"
#include "runs.h"
#include "transport.h"
#include <stdio.h>
#include <unistd.h>

/* The kinds of a job's stores. A cut in a store to a sector spoils it; one in a store to the record goes through or not. */
enum kind { ERASE, WRITE, RECORD_COPIED, CLEAR, RECORD_CLEARED, LAST, KINDS };

static const struct {
    const char *name;
    bool to_sector;
} kinds[KINDS] = {
    {"erase", true}, {"write", true}, {"record", false}, {"clear", true}, {"record cleared", false}, {"last", false},
};

/* a job, the device that it begins with and, once it was played uncut, the one that it ends with; no image: a delete */
struct job {
    const char *name;
    const struct image *image;
    const struct device *begin;
    struct device end;
    struct plan plan;
};

/* the power cut after so many stores, so many times, and the stores that must come after it: from the least to the most */
struct cut {
    uint32_t after, times;
    bool through;
    uint32_t least, most;
};

/* a line of the table: how many stores of a kind there are, and what became of the jobs that were cut in one */
struct line {
    uint32_t stores, jobs, cuts, spoiled, same, too_soon, most, good;
};

/* the kind of a job's store with this number, and how many its sector has had before it */
struct place {
    enum kind kind;
    uint32_t made;
};

static struct place place_of(const struct plan *plan, uint32_t number) {
    uint32_t copies = 3 * plan->b, clears = 2 * plan->c;
    if (number > copies + clears)
        return (struct place){LAST, 0};
    uint32_t made = number <= copies ? (number - 1) % 3 : (number - copies - 1) % 2;
    return (struct place){(number <= copies ? ERASE : CLEAR) + made, made};
}

/* The stores that come after a cut in this one: where it did not go through, those made in its sector come again. */
static uint32_t stores_after(const struct plan *plan, uint32_t number, bool through) {
    uint32_t gone = through ? number : number - 1 - place_of(plan, number).made;
    return plan_stores(plan) - gone;
}

static struct result play(const struct job *job) {
    return job->image ? updater_upgrade(job->image->bytes, job->image->size) : updater_delete();
}

/* no call was refused, the stores left were told rightly, and the stack was not said to run before the job's end */
static bool told_rightly(const struct account *account) {
    return !account->refused && !account->miscounted && !account->stack_too_soon;
}

/* the job never cut: it ends as the rules say */
static bool play_uncut(struct job *job) {
    bench_restore(job->begin);
    job->plan = plan_of(job->begin, job->image);
    bool done = play(job).outcome == DONE && told_rightly(bench_account()) && bench_account()->stores == plan_stores(&job->plan);
    job->end = *bench_device();
    return done && boundary_of(&job->end) == job->plan.q && plan_leaves(&job->plan, job->begin, job->image, job->end.flash);
}

/* the job with its power cut: a job more on its line */
static void play_cut(const struct job *job, const struct cut *cut, struct line *line) {
    const struct account *account = bench_account();
    bench_restore(job->begin);
    bench_cut(cut->after, cut->times, cut->through);
    bool same = play(job).outcome == DONE && bench_equals(&job->end);
    bool counted = account->after_cut >= cut->least && account->after_cut <= cut->most;
    line->jobs++;
    line->cuts += account->cuts;
    line->spoiled += account->spoiled;
    line->same += same;
    line->too_soon += account->stack_too_soon;
    line->good += same && counted && told_rightly(account) && account->cuts > 0;
    if (account->after_cut > line->most)
        line->most = account->after_cut;
}

/* on a terminal, one line that counts */
static void progress(const struct job *job, uint32_t number) {
    if (!isatty(STDOUT_FILENO))
        return;
    printf("\r  %s: cut in store %u of %u", job->name, number, plan_stores(&job->plan));
    if (number == plan_stores(&job->plan))
        printf("\r%50s\r", "");
    fflush(stdout);
}

/* every store cut, those to the record both ways; then, if it has so many, one job that is cut in every fourth store, over and over */
static void cut_every_store(const struct job *job, struct line *lines, struct line *again) {
    for (uint32_t number = 1; number <= plan_stores(&job->plan); number++) {
        enum kind kind = place_of(&job->plan, number).kind;
        lines[kind].stores++;
        for (int through = 0; through < (kinds[kind].to_sector ? 1 : 2); through++) {
            uint32_t wanted = stores_after(&job->plan, number, through);
            play_cut(job, &(struct cut){number - 1, 1, through, wanted, wanted}, &lines[kind]);
        }
        progress(job, number);
    }
    if (plan_stores(&job->plan) < 4)
        return;
    again->stores = plan_stores(&job->plan);
    play_cut(job, &(struct cut){3, UINT32_MAX, false, 0, again->stores}, again);
}

/* a line of the table, if there are such stores; the sectors that were spoiled are so many */
static bool print_line(const struct job *job, const char *name, const struct line *line, uint32_t spoiled, struct tally *tally) {
    if (line->stores == 0)
        return true;
    bool good = line->good == line->jobs && line->spoiled == spoiled;
    printf("  %-20s%6u%6u%9u%16u%15u%8u (%u)%s\n", name, line->stores, line->jobs, line->spoiled, line->same, line->too_soon, line->most,
           plan_stores(&job->plan), good ? "" : "   WRONG");
    tally->jobs += line->jobs;
    tally->same += line->same;
    return good;
}

static bool cut_job(struct job *job, struct tally *tally) {
    struct line lines[KINDS] = {{0}}, again = {0};
    char name[32];
    bool good = play_uncut(job);
    cut_every_store(job, lines, &again);
    printf("\n  %s: b = %u, c = %u, %u stores%s\n\n", job->name, job->plan.b, job->plan.c, plan_stores(&job->plan), good ? "" : "   WRONG");
    printf("  Power cut in        Stores  Jobs  Spoiled  Ended as uncut  Old stack run  Stores after the cut, most (promised)\n");
    for (enum kind kind = ERASE; kind < KINDS; kind++)
        good = print_line(job, kinds[kind].name, &lines[kind], kinds[kind].to_sector ? lines[kind].jobs : 0, tally) && good;
    snprintf(name, sizeof name, "every 4th, %u cuts", again.cuts);
    return print_line(job, name, &again, again.spoiled, tally) && good;
}

/* the map as the power comes back, after a cut in the write of a sector in the middle */
static void show_cut(const struct job *job, const struct image *old_stack) {
    struct reply reply;
    char caption[64];
    uint32_t number = 3 * (job->plan.b / 2) + 2;
    bench_restore(job->begin);
    updater_load(job->image->bytes, job->image->size);
    updater_activate();
    updater_command(FW_UPGRADE, &reply);
    bench_cut(number - 1, 1, false);
    for (uint32_t store = 1; store <= number; store++)
        transport_wait();
    snprintf(caption, sizeof caption, "Cut in store %u, the write of a sector", number);
    map_print(caption, old_stack, job->image);
}

bool cuts_run(const struct scene *scene, struct tally *tally) {
    static struct job upgrade = {.name = "Upgrade"}, delete = {.name = "Delete"};
    upgrade.image = &scene->new_stack;
    upgrade.begin = &scene->with_old;
    delete.begin = &scene->with_new;
    printf("3. The power cut in every store of the upgrade, and of a delete\n");
    upgrade.plan = plan_of(upgrade.begin, upgrade.image);
    show_cut(&upgrade, &scene->old_stack);
    bool upgraded = cut_job(&upgrade, tally), deleted = cut_job(&delete, tally);
    return upgraded && deleted;
}
