/* Memory for the buffers of a call: between pages without access, or, for valgrind, each by itself on the heap. */
#define _GNU_SOURCE
#include "fuzz.h"

#include <stdlib.h>
#include <string.h>
#include <sys/mman.h>

enum { PAGE = 4096, ROOM = 1024 * PAGE, AROUND = 64, MARK = 0xc3 };

static struct slot {
    uint8_t *pages;
    buffer held;

} slots[SLOTS];
static bool heap;

void buffers_start(bool on_heap) {
    heap = on_heap;
    for (int i = 0; i < SLOTS && !heap; i++) {
        uint8_t *all = mmap(NULL, ROOM + 2 * PAGE, PROT_NONE, MAP_PRIVATE | MAP_ANONYMOUS, -1, 0);
        if (all == MAP_FAILED || mprotect(all + PAGE, ROOM, PROT_READ | PROT_WRITE) != 0)
            fail("no memory");
        slots[i].pages = all + PAGE;
    }
}

/* The bytes around it that are writable memory: before it where it ends at the last page's end, else behind it. */
static uint8_t *around(const struct slot *slot) {
    uint8_t *at = slot->held.at;
    return at + bytes_of(slot->held) == slot->pages + ROOM ? at - AROUND : at + bytes_of(slot->held);
}

buffer lend(int slot, size_t length, size_t size) {
    struct slot *s = &slots[slot];
    buffer b = {NULL, length, size};
    if (bytes_of(b) + AROUND > ROOM)
        fail("a buffer of %zu bytes has no room", bytes_of(b));
    if (heap) {
        free(s->pages);
        b.at = s->pages = malloc(bytes_of(b));
        if (b.at == NULL && length > 0)
            fail("no memory");
    } else {
        b.at = one_in(2) ? s->pages : s->pages + ROOM - bytes_of(b);
    }
    s->held = b;
    if (!heap)
        memset(around(s), MARK, AROUND);
    if (length == 0 && one_in(2))
        b.at = NULL;
    return b;
}

void protect(int slot, bool writable) {
    const uintptr_t at = (uintptr_t)slots[slot].held.at, from = at / PAGE * PAGE;
    const size_t bytes = bytes_of(slots[slot].held);
    if (!heap && bytes > 0 &&
        mprotect((void *)from, at + bytes - from, writable ? PROT_READ | PROT_WRITE : PROT_READ) != 0)
        fail("mprotect");
}

bool kept_within(int slot) {
    if (heap)
        return true;
    const uint8_t *marks = around(&slots[slot]);
    for (int i = 0; i < AROUND; i++)
        if (marks[i] != MARK)
            return false;
    return true;
}
