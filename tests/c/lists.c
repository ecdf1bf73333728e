/* The buffers that are lent for a year's list. */
#include "check.h"

#include "lists.h"

enum { AROUND = 4, ROOM = 200 };

static uint64_t room[AROUND + ROOM + AROUND];

/* The question as the call has it: that of a list without wings names none. */
static void ask(const lister *list, uint64_t wing, uint64_t year, const char *out, size_t length)
{
    if (list->wingless)
        asking("%s(%" PRIu64 ", %s, %zu)", list->name, year, out, length);
    else
        asking("%s(%" PRIu64 ", %" PRIu64 ", %s, %zu)", list->name, wing, year, out, length);
}

/* Lends `length` entries: the answer is as wanted, the list stands at their start, and every other word is as it was. */
static void lend(const lister *list, uint64_t wing, uint64_t year, size_t length, uint64_t refusal, uint64_t count,
                 const uint64_t *want, size_t entries)
{
    for (size_t i = 0; i < COUNT(room); ++i) room[i] = GUARD + i;
    bd_list_answer got = list->call(wing, year, room + AROUND, length);
    ask(list, wing, year, "out", length);
    same("refusal", got.refusal, refusal);
    same("count", got.count, count);
    for (size_t i = 0; i < COUNT(room); ++i) {
        int inside = i >= AROUND && i < AROUND + entries;
        same(inside ? "entry" : "entry beyond the list", room[i], inside ? want[i - AROUND] : GUARD + i);
    }
}

/* NULL and 0 ask for the room; the walk over every year asks so too. */
static void no_buffer(const lister *list, uint64_t wing, uint64_t year, uint64_t refusal, uint64_t count)
{
    bd_list_answer got = list->call(wing, year, NULL, 0);
    ask(list, wing, year, "NULL", 0);
    same("refusal", got.refusal, refusal), same("count", got.count, count);
}

void every_length(const lister *list, uint64_t wing, uint64_t year, uint64_t count, const uint64_t *want, size_t entries)
{
    no_buffer(list, wing, year, BD_BUFFER_TOO_SHORT, entries);
    for (size_t length = 0; length < entries; ++length)
        lend(list, wing, year, length, BD_BUFFER_TOO_SHORT, entries, NULL, 0);
    lend(list, wing, year, entries, BD_DONE, count, want, entries);
    lend(list, wing, year, entries + 1, BD_DONE, count, want, entries);
    lend(list, wing, year, ROOM, BD_DONE, count, want, entries);
}

void refused_list(const lister *list, uint64_t wing, uint64_t year, uint64_t refusal)
{
    lend(list, wing, year, ROOM, refusal, 0, NULL, 0);
    lend(list, wing, year, 0, refusal, 0, NULL, 0);
    no_buffer(list, wing, year, refusal, 0);
}
