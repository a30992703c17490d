/* The parents and members of a plan's configurations, for the operator's tool. */
#ifndef PLACES_H
#define PLACES_H

#include "cluster.h"

enum { CONFIGURATIONS = 64, NO_PARENT = -1 };

struct configuration {
    int parent;
    uint64_t members; /* a bit for each member */
};

struct places {
    struct configuration at[GROUPS][CONFIGURATIONS];
    int counts[GROUPS];
    int groups;
};

/* Reads the configurations of a plan that `volume_plan_read` has accepted. Returns false if the file can't be read. */
bool places_read(const char *path, struct places *out);

/* Returns the membership epoch of a configuration: 1 for the root, and one more for each step from it. */
uint32_t places_epoch(const struct places *places, int group, int configuration);

#endif
