/* The program's pages that hold registered bytes lie in the client's memory file, mapped over the
 * program's own addresses. What was in them is copied before the mapping changes; other threads
 * must not write to them at that moment. Whole pages are shared with the monitor, which seals the
 * file: it is mapped once before that, and pages of that mapping are mapped again. */
#define _GNU_SOURCE
#include "verbs.h"

#include <errno.h>
#include <fcntl.h>
#include <stdlib.h>
#include <sys/mman.h>
#include <sys/syscall.h>
#include <unistd.h>

/* The kernel copies MADV_DONTFORK with each mapping of the file's. */
static int map_file(struct pages *pages, uint32_t bytes)
{
    const int seals = F_SEAL_SHRINK | F_SEAL_GROW;
    pages->file = memfd_create(PAGES_NAME, MFD_CLOEXEC | MFD_ALLOW_SEALING);
    pages->copy = memfd_create(PAGES_NAME, MFD_CLOEXEC);
    if (pages->file < 0 || pages->copy < 0 || ftruncate(pages->file, (off_t)bytes) != 0 ||
        fcntl(pages->file, F_ADD_SEALS, seals) != 0) {
        return errno;
    }
    void *all = mmap(NULL, bytes, PROT_READ | PROT_WRITE, MAP_SHARED, pages->file, 0);
    if (all == MAP_FAILED) {
        return errno;
    }
    pages->all = all;
    return madvise(all, bytes, MADV_DONTFORK) == 0 ? 0 : errno;
}

int pages_open(struct pages *pages, uint32_t bytes)
{
    pages->count = bytes / PACKET_PAGE;
    pages->at = calloc(pages->count, sizeof *pages->at);
    const int why = pages->at == NULL ? ENOMEM : map_file(pages, bytes);
    if (why != 0) {
        pages_close(pages);
    }
    return why;
}

void pages_lose(struct pages *pages)
{
    free(pages->at);
    if (pages->file >= 0) {
        close(pages->file);
    }
    if (pages->copy >= 0) {
        close(pages->copy);
    }
    *pages = (struct pages){.file = -1, .copy = -1};
}

/* ---- where pages lie */

/* The place of a page that is shared already, or the count. */
static size_t place_of(const struct pages *pages, uintptr_t address)
{
    size_t n = 0;
    while (n < pages->count && !(pages->at[n].uses > 0 && pages->at[n].address == address)) {
        n++;
    }
    return n;
}

/* Whether `count` places from `place` on can be the pages from `address` on: each is free or that
 * page, which lies nowhere else. */
static int fits(const struct pages *pages, size_t place, uintptr_t address, size_t count)
{
    if (place > pages->count || count > pages->count - place) {
        return 0;
    }
    for (size_t n = 0; n < count; n++) {
        const struct page *page = pages->at + place + n;
        const uintptr_t wanted = address + n * PACKET_PAGE;
        if (page->uses > 0 ? page->address != wanted : place_of(pages, wanted) < pages->count) {
            return 0;
        }
    }
    return 1;
}

/* Where a row of pages may lie, or the count: beside a page that is shared already, else anywhere.
 */
static size_t find_row(const struct pages *pages, uintptr_t address, size_t count)
{
    for (size_t place = 0; place < pages->count; place++) {
        if (fits(pages, place, address, count)) {
            return place;
        }
    }
    return pages->count;
}

int pages_hold(const struct pages *pages, uintptr_t address, size_t length)
{
    const uintptr_t from = address / PACKET_PAGE * PACKET_PAGE;
    for (size_t n = 0; n < pages->count; n++) {
        const struct page *page = pages->at + n;
        if (page->uses > 0 && page->address >= from &&
            page->address - from < address - from + length) {
            return 1;
        }
    }
    return 0;
}

size_t pages_used(const struct pages *pages)
{
    size_t used = 0;
    for (size_t n = 0; n < pages->count; n++) {
        used += pages->at[n].uses > 0;
    }
    return used;
}

/* ---- mappings */

static uint8_t *page_of(const struct pages *pages, size_t place)
{
    return pages->all + place * PACKET_PAGE;
}

size_t pages_copy(const struct pages *pages, uint8_t *copies, uintptr_t *addresses)
{
    size_t done = 0;
    for (size_t place = 0; place < pages->count; place++) {
        if (pages->at[place].uses > 0) {
            memcpy(copies + done * PACKET_PAGE, page_of(pages, place), PACKET_PAGE);
            addresses[done++] = pages->at[place].address;
        }
    }
    return done;
}

/* Moves one page of the program into the file; 0 or an errno. The kernel reads the page, which may
 * not be there, and by a call of no name that a sanitizer knows: not all bytes of it are the
 * program's. */
static int share_page(const struct pages *pages, size_t place, uintptr_t address)
{
    void *page = (void *)address;
    if (syscall(SYS_pwrite64, pages->copy, page, (size_t)PACKET_PAGE, 0L, 0L) != PACKET_PAGE ||
        pread(pages->copy, page_of(pages, place), PACKET_PAGE, 0) != PACKET_PAGE) {
        return EFAULT;
    }
    const int how = MREMAP_MAYMOVE | MREMAP_FIXED;
    return mremap(page_of(pages, place), 0, PACKET_PAGE, how, page) == MAP_FAILED ? errno : 0;
}

/* Gives a page back to the program alone, and clears it in the file; 0, or an errno where the page
 * stays shared. */
static int unshare_page(const struct pages *pages, size_t place)
{
    void *page = (void *)pages->at[place].address;
    void *own = mmap(NULL, PACKET_PAGE, PROT_READ | PROT_WRITE, MAP_PRIVATE | MAP_ANONYMOUS, -1, 0);
    if (own == MAP_FAILED) {
        return errno;
    }
    memcpy(own, page_of(pages, place), PACKET_PAGE);
    if (mremap(own, PACKET_PAGE, PACKET_PAGE, MREMAP_MAYMOVE | MREMAP_FIXED, page) == MAP_FAILED) {
        const int why = errno;
        munmap(own, PACKET_PAGE);
        return why;
    }
    memset(page_of(pages, place), 0, PACKET_PAGE);
    return 0;
}

/* ---- rows of pages, mapped while the caller's stack stands still: it may be among them */

struct row {
    struct pages *pages;
    size_t first;
    size_t count;
    uintptr_t address;
    int writes;
};

static int release_row(void *given)
{
    const struct row *row = given;
    for (size_t place = row->first; place < row->first + row->count; place++) {
        struct page *page = row->pages->at + place;
        if (page->uses > 1 || (page->uses == 1 && unshare_page(row->pages, place) == 0)) {
            page->uses--;
        }
    }
    return 0;
}

static int share_row(void *given)
{
    const struct row *row = given;
    int why = maps_check(row->address, row->count * PACKET_PAGE, row->writes);
    for (size_t n = 0; n < row->count && why == 0; n++) {
        struct page *page = row->pages->at + row->first + n;
        const uintptr_t address = row->address + n * PACKET_PAGE;
        why = page->uses > 0 ? 0 : share_page(row->pages, row->first + n, address);
        if (why != 0) {
            struct row done = {row->pages, row->first, n, row->address, 0};
            release_row(&done);
        } else {
            page->address = address;
            page->uses++;
        }
    }
    return why;
}

int pages_share(struct pages *pages, uintptr_t address, size_t length, int writes, size_t *first,
                size_t *count)
{
    const uintptr_t from = address / PACKET_PAGE * PACKET_PAGE;
    int result = 0;
    if (length == 0 || length > pages->count * PACKET_PAGE) {
        return length == 0 ? EINVAL : ENOMEM;
    }
    *count = (address - from + length + PACKET_PAGE - 1) / PACKET_PAGE;
    *first = find_row(pages, from, *count);
    if (*first == pages->count) {
        return ENOMEM;
    }
    struct row row = {pages, *first, *count, from, writes};
    const int why = run_aside(share_row, &row, &result);
    return why != 0 ? why : result;
}

void pages_release(struct pages *pages, size_t first, size_t count)
{
    struct row row = {pages, first, count, 0, 0};
    int result;
    run_aside(release_row, &row, &result);
}

void pages_close(struct pages *pages)
{
    for (size_t place = 0; pages->at != NULL && place < pages->count; place++) {
        pages->at[place].uses = pages->at[place].uses > 0;
    }
    if (pages->all != NULL) {
        pages_release(pages, 0, pages->count);
        munmap(pages->all, pages->count * PACKET_PAGE);
    }
    pages_lose(pages);
}
