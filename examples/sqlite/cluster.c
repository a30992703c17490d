#include "cluster.h"

#include <ctype.h>
#include <errno.h>
#include <stdio.h>
#include <stdlib.h>
#include <string.h>

/* Strips the spaces at both ends of a line, in place. */
static char *trimmed(char *at) {
    while (isspace((unsigned char)*at))
        at++;
    char *end = at + strlen(at);
    while (end > at && isspace((unsigned char)end[-1]))
        *--end = 0;
    return at;
}

/* Strips the quotes of a text, in place; returns NULL if it isn't quoted. */
static char *unquoted(char *at) {
    size_t length = strlen(at);
    if (length < 2 || at[0] != '"' || at[length - 1] != '"')
        return NULL;
    at[length - 1] = 0;
    return at + 1;
}

/* Makes an address from a value: a socket's path is relative to the cluster file's folder. */
static char *address_of(const struct cluster *cluster, const char *value) {
    if (strncmp(value, "unix:", 5) != 0)
        return strdup(value);
    char *path = path_in(cluster->folder, value + 5);
    char *made = path ? malloc(strlen(path) + 6) : NULL;
    if (made)
        sprintf(made, "unix:%s", path);
    free(path);
    return made;
}

/* Returns where a key's value is kept, or NULL for an unknown key. */
static char **place_of(struct cluster *cluster, const char *key) {
    if (strcmp(key, "plan") == 0)
        return &cluster->plan;
    if (strcmp(key, "authority") == 0)
        return &cluster->authority;
    if (strncmp(key, "node.", 5) != 0 || !isdigit((unsigned char)key[5]))
        return NULL;
    char *end;
    unsigned long member = strtoul(key + 5, &end, 10);
    return *end == 0 && member < MEMBERS ? &cluster->nodes[member] : NULL;
}

/* Reads a line; returns its fault, or NULL. */
static const char *take_line(struct cluster *cluster, char *line) {
    line = trimmed(line);
    if (*line == 0 || *line == '#')
        return NULL;
    char *equals = strchr(line, '=');
    if (!equals)
        return "no `=`";
    *equals = 0;
    char *value = unquoted(trimmed(equals + 1));
    char **place = place_of(cluster, trimmed(line));
    if (!value)
        return "the value isn't in quotes";
    if (!place)
        return "no such key";
    if (*place)
        return "a key that is there already";
    *place = place == &cluster->plan ? path_in(cluster->folder, value) : address_of(cluster, value);
    return *place ? NULL : "out of memory";
}

static bool take_lines(struct cluster *cluster, const char *path, char *text, char fault[FAULT_LINE]) {
    char *rest = NULL;
    int number = 0;
    for (char *line = text; line; line = rest) {
        rest = strchr(line, '\n');
        if (rest)
            *rest++ = 0;
        number++;
        const char *wrong = take_line(cluster, line);
        if (wrong) {
            snprintf(fault, FAULT_LINE, "%s, line %d: %s", path, number, wrong);
            return false;
        }
    }
    if (cluster->plan && cluster->authority)
        return true;
    snprintf(fault, FAULT_LINE, "%s: it must name `plan` and `authority`", path);
    return false;
}

bool cluster_read(const char *path, struct cluster *out, char fault[FAULT_LINE]) {
    struct buffer text = {0};
    const char *slash = strrchr(path, '/');
    *out = (struct cluster){0};
    out->folder = slash ? strndup(path, (size_t)(slash - path)) : strdup(".");
    bool good = file_read(path, &text) && buffer_add(&text, "", 1) && out->folder;
    if (good)
        good = take_lines(out, path, (char *)text.at, fault);
    else
        snprintf(fault, FAULT_LINE, "%s: %s", path, strerror(errno));
    buffer_free(&text);
    if (!good)
        cluster_free(out);
    return good;
}

bool cluster_plan(const struct cluster *cluster, struct volume_handle *plan, char fault[FAULT_LINE]) {
    struct buffer text = {0};
    uint8_t line[FAULT_LINE / 2];
    size_t needed = 0;
    if (!file_read(cluster->plan, &text) || !buffer_reserve(&text, 1)) {
        snprintf(fault, FAULT_LINE, "%s: %s", cluster->plan, strerror(errno));
        buffer_free(&text);
        return false;
    }
    uint8_t status = volume_plan_read(text.at, text.length, plan, line, sizeof line, &needed);
    buffer_free(&text);
    if (status == VOLUME_OK)
        return true;
    int shown = (int)(needed < sizeof line ? needed : sizeof line);
    snprintf(fault, FAULT_LINE, "%.100s: %.*s", cluster->plan, shown, (const char *)line);
    return false;
}

void cluster_free(struct cluster *cluster) {
    free(cluster->folder);
    free(cluster->plan);
    free(cluster->authority);
    for (int member = 0; member < MEMBERS; member++)
        free(cluster->nodes[member]);
    *cluster = (struct cluster){0};
}

const char *fault_name(uint8_t number, char name[40]) {
    size_t length = 0;
    if (volume_fault_name(number, (uint8_t *)name, 39, &length) != VOLUME_OK)
        length = 0;
    name[length] = 0;
    return name;
}

bool next_message(struct volume_handle *handle, struct buffer *out, bool *good) {
    size_t needed = 0;
    *good = true;
    out->length = 0;
    if (!buffer_reserve(out, 1024)) {
        *good = false;
        return false;
    }
    uint8_t status = volume_next_message(handle, out->at, out->room, &needed);
    if (status == VOLUME_TOO_SMALL) {
        *good = buffer_reserve(out, needed);
        if (*good)
            status = volume_next_message(handle, out->at, out->room, &needed);
    }
    if (status != VOLUME_OK) {
        *good = *good && status == VOLUME_NO_MORE;
        return false;
    }
    out->length = needed;
    return true;
}
