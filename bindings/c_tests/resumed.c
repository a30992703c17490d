/* Saves and resumes segments at random points. Each seed's run is made twice, with and without this: traffic, points,
 * SCLs, pages and snapshots must be the same.
 *
 *     resumed PLAN RUNS
 *
 * PLAN is examples/member_replaced.json. */
#include "cluster.h"

enum { ACTS = 250 };

/* Saves or resumes a node, or does nothing, by a second sequence of random numbers. */
static void disturb(struct cluster *cluster, uint64_t *random, size_t *saved, size_t *resumed) {
    uint8_t member = (uint8_t)random_below(random, MEMBERS);
    uint64_t which = random_below(random, 8);
    if (which == 0 && !cluster->nodes[member].has_copies) {
        cluster_save(cluster, member);
        ++*saved;
    }
    if (which == 1) {
        cluster_resume(cluster, member);
        ++*resumed;
    }
}

/* Makes the run of a seed; returns the state at its end. */
static struct bytes end_of(const struct bytes *plan, uint64_t seed, bool disturbed, size_t *saved, size_t *resumed) {
    struct cluster cluster;
    uint64_t random = seeded(seed + 1000000);
    cluster_birth(&cluster, plan, seed);
    for (int i = 0; i < ACTS; i++) {
        cluster_act(&cluster);
        if (disturbed)
            disturb(&cluster, &random, saved, resumed);
    }
    cluster_settle(&cluster);
    struct bytes end = cluster_end(&cluster);
    cluster_close(&cluster);
    return end;
}

int main(int count, char **words) {
    size_t saved = 0, resumed = 0;
    WANT(count == 3);
    struct bytes plan = read_file(words[1]);
    uint64_t runs = strtoull(words[2], NULL, 10);
    for (uint64_t seed = 1; seed <= runs; seed++) {
        struct bytes plain = end_of(&plan, seed, false, &saved, &resumed);
        struct bytes disturbed = end_of(&plan, seed, true, &saved, &resumed);
        WANT(are_same(&plain, &disturbed));
        free_bytes(&plain);
        free_bytes(&disturbed);
    }
    free_bytes(&plan);
    printf("resumed: %llu runs, %zu snapshots, %zu segments resumed\n", (unsigned long long)runs, saved, resumed);
    return 0;
}
