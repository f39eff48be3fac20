/* What kind of memory the program wants to register: a page is moved into the client's file, so it
 * must be the program's alone. */
#define _GNU_SOURCE
#include "verbs.h"

#include <errno.h>
#include <inttypes.h>
#include <stdio.h>
#include <stdlib.h>

/* A line of /proc/self/maps. */
struct mapping {
    uintptr_t from, to;
    char rights[5]; /* the last: s for shared, p for private */
    int own;        /* of this library's file */
};

static int read_mapping(const char *line, struct mapping *mapping)
{
    mapping->own = strstr(line, "/memfd:" PAGES_NAME) != NULL;
    return sscanf(line, "%" SCNxPTR "-%" SCNxPTR " %4s", &mapping->from, &mapping->to,
                  mapping->rights) == 3;
}

static int judge(const struct mapping *mapping, int writes)
{
    if (mapping->rights[3] == 's' && !mapping->own) {
        return EOPNOTSUPP;
    }
    return mapping->rights[0] != 'r' || (writes && mapping->rights[1] != 'w') ? EFAULT : 0;
}

int maps_check(uintptr_t address, size_t length, int writes)
{
    uintptr_t next = address;
    const uintptr_t end = address + length;
    FILE *maps = fopen("/proc/self/maps", "re");
    struct mapping mapping;
    char *line = NULL;
    size_t size = 0;
    int why = 0;
    while (maps != NULL && next < end && why == 0 && getline(&line, &size, maps) > 0) {
        if (read_mapping(line, &mapping) && mapping.from <= next && next < mapping.to) {
            why = judge(&mapping, writes);
            next = mapping.to;
        }
    }
    free(line);
    if (maps == NULL) {
        return 0;
    }
    fclose(maps);
    return why == 0 && next < end ? EFAULT : why;
}
