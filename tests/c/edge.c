/* A page that cannot be read, and bytes that end where it begins. */
#define _DEFAULT_SOURCE /* for MAP_ANONYMOUS */
#include <string.h>
#include <sys/mman.h>

#include "check.h"

#include "edge.h"

/* Pages are 4, 16 or 64 KB, so that all of EDGE_ROOM from a multiple of it on is whole pages. */
uint8_t *edge(void)
{
    static uint8_t *found;
    if (found != NULL) return found;
    uint8_t *all = mmap(NULL, 3 * EDGE_ROOM, PROT_READ | PROT_WRITE, MAP_PRIVATE | MAP_ANONYMOUS, -1, 0);
    asking("memory for an edge");
    same("mmap failed", all == MAP_FAILED, 0);
    found = all + EDGE_ROOM + (EDGE_ROOM - (uintptr_t)all % EDGE_ROOM) % EDGE_ROOM;
    same("mprotect", (uint64_t)mprotect(found, EDGE_ROOM, PROT_NONE), 0);
    return found;
}

uint8_t *before_edge(const uint8_t *bytes, size_t length)
{
    same("more than is lent at the edge", length > EDGE_ROOM, 0);
    if (length > 0) memcpy(edge() - length, bytes, length);
    return edge() - length;
}
