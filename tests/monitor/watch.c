/* Stands before liblesungkap-verbs.so in LD_PRELOAD and lets a test see a program's registered bytes: WATCH_SEED fills a region with a
 * pattern when it is registered, WATCH_FILES names files for its bytes then (NAME.before) and when it is deregistered (NAME.after),
 * WATCH_SHORT registers so many bytes less. */
#define _GNU_SOURCE
#include <dlfcn.h>
#include <infiniband/verbs.h>
#include <stdint.h>
#include <stdio.h>
#include <stdlib.h>

#undef ibv_reg_mr

static size_t length_asked;

static unsigned number_in(const char *name)
{
    const char *word = getenv(name);
    return word == NULL ? 0 : (unsigned)strtoul(word, NULL, 10);
}

/* The function of this name in the next library. */
static void *next(const char *name)
{
    void *found = dlsym(RTLD_NEXT, name);
    if (found == NULL) {
        fprintf(stderr, "watch: no %s\n", name);
        exit(3);
    }
    return found;
}

static void dump(const void *bytes, size_t length, const char *when)
{
    char path[4096];
    const char *name = getenv("WATCH_FILES");
    if (name == NULL) {
        return;
    }
    snprintf(path, sizeof path, "%s.%s", name, when);
    FILE *file = fopen(path, "wb");
    if (file == NULL || fwrite(bytes, 1, length, file) != length || fclose(file) != 0) {
        fprintf(stderr, "watch: %s can't be written\n", path);
        exit(3);
    }
}

struct ibv_mr *ibv_reg_mr(struct ibv_pd *pd, void *address, size_t length, int access)
{
    struct ibv_mr *(*real)(struct ibv_pd *, void *, size_t, int);
    *(void **)&real = next("ibv_reg_mr");
    uint32_t word = number_in("WATCH_SEED");
    for (size_t n = 0; word != 0 && n < length; n++) {
        word = word * 1664525u + 1013904223u;
        ((uint8_t *)address)[n] = (uint8_t)(word >> 24);
    }
    length_asked = length;
    dump(address, length, "before");
    return real(pd, address, length - number_in("WATCH_SHORT"), access);
}

int ibv_dereg_mr(struct ibv_mr *mr)
{
    int (*real)(struct ibv_mr *);
    *(void **)&real = next("ibv_dereg_mr");
    dump(mr->addr, length_asked, "after");
    return real(mr);
}
