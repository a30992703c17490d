#include "places.h"

#include <stdlib.h>
#include <string.h>

/* Returns the text after a key's colon. */
static const char *value_of(const char *key) {
    const char *colon = strchr(key, ':');
    return colon ? colon + 1 + strspn(colon + 1, " \t\r\n") : "";
}

static uint64_t members_of(const char *at) {
    uint64_t members = 0;
    at += *at == '[';
    for (;;) {
        char *end;
        unsigned long member = strtoul(at, &end, 10);
        if (end == at || member >= MEMBERS)
            return members;
        members |= (uint64_t)1 << member;
        at = end + strspn(end, " \t\r\n,");
    }
}

/* Finds the keys by their quoted names: each configuration has each key once, and no other text of a plan has one. */
static void take_keys(struct places *out, const char *text) {
    int parents = 0;
    for (const char *at = strchr(text, '"'); at; at = strchr(at + 1, '"')) {
        struct configuration *row = out->groups > 0 ? out->at[out->groups - 1] : NULL;
        if (strncmp(at, "\"configurations\"", 16) == 0 && out->groups < GROUPS) {
            out->groups++;
            parents = 0;
        } else if (strncmp(at, "\"parent\"", 8) == 0 && row && parents < CONFIGURATIONS) {
            const char *value = value_of(at);
            row[parents++].parent = *value == 'n' ? NO_PARENT : atoi(value);
        } else if (strncmp(at, "\"members\"", 9) == 0 && row && out->counts[out->groups - 1] < CONFIGURATIONS) {
            row[out->counts[out->groups - 1]++].members = members_of(value_of(at));
        }
    }
}

bool places_read(const char *path, struct places *out) {
    struct buffer text = {0};
    bool good = file_read(path, &text) && buffer_add(&text, "", 1);
    memset(out, 0, sizeof *out);
    if (good)
        take_keys(out, (const char *)text.at);
    buffer_free(&text);
    return good;
}

uint32_t places_epoch(const struct places *places, int group, int configuration) {
    uint32_t epoch = 1;
    while (configuration >= 0 && configuration < places->counts[group]
           && places->at[group][configuration].parent != NO_PARENT && epoch <= CONFIGURATIONS) {
        configuration = places->at[group][configuration].parent;
        epoch++;
    }
    return epoch;
}
