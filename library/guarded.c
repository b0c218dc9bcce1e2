#include "guarded.h"

#include <stdio.h>
#include <stdlib.h>
#include <string.h>
#include <sys/mman.h>
#include <unistd.h>

static size_t page_length;
static uint8_t *never_lent; /* a page as all are before anything is lent of them */

static uint8_t *new_page(void)
{
    uint8_t *all = mmap(NULL, 3 * page_length, PROT_NONE, MAP_PRIVATE | MAP_ANONYMOUS, -1, 0);

    if (all == MAP_FAILED || mprotect(all + page_length, page_length, PROT_READ | PROT_WRITE) != 0) {
        perror("guarded");
        exit(EXIT_FAILURE);
    }
    return memset(all + page_length, UNLENT, page_length);
}

void guarded_make(guarded *some, size_t count)
{
    page_length = (size_t)sysconf(_SC_PAGESIZE);
    never_lent = new_page();
    for (size_t i = 0; i < count; i++) {
        some[i].page = some[i].at = new_page();
        some[i].length = 0;
    }
}

void guarded_lend(guarded *one, size_t length, bool at_end)
{
    memset(one->at, UNLENT, one->length);
    one->at = at_end ? one->page + page_length - length : one->page;
    one->length = length;
}

bool guarded_unchanged(const guarded *one)
{
    return memcmp(one->was, one->at, one->length) == 0;
}

bool guarded_beside(const guarded *one)
{
    size_t before = (size_t)(one->at - one->page);

    return memcmp(one->page, never_lent, before) == 0 &&
           memcmp(one->at + one->length, never_lent, page_length - before - one->length) == 0;
}
