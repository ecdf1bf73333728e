/* Which refusal of a loaded sheet is given where several apply: the wing's, its size's, its years', layout's, content's. */
#include "check.h"

#include "bytes.h"
#include "edge.h"
#include "reader.h"

static uint8_t room[BD_SHEET_ROOM];

static void refused(uint64_t wing, size_t length, uint64_t refusal)
{
    same_refusal(wing, before_edge(room, length), length, refusal);
}

/* Changes of a number of a sheet of 5787 and 5788, and what is refused for each; the last changes nothing. */
static const struct {
    size_t place;
    int bytes;
    uint64_t number, refusal;
} CHANGES[] = {
    {0, 2, 0, BD_BAD_SHEET_YEARS},    {0, 2, 101, BD_BAD_SHEET_YEARS},   {2, 2, 0, BD_BAD_SHEET_YEARS},
    {2, 2, 9999, BD_BAD_SHEET_YEARS}, {0, 2, 1, BD_BAD_SHEET_LAYOUT},    {0, 2, 3, BD_BAD_SHEET_LAYOUT},
    {4, 4, 0, BD_BAD_SHEET_LAYOUT},   {4, 4, 1000, BD_BAD_SHEET_LAYOUT}, {8, 4, 24, BD_BAD_SHEET_LAYOUT},
    {12, 4, 24, BD_BAD_SHEET_LAYOUT}, {16, 4, 38, BD_BAD_SHEET_LAYOUT},  {20, 2, 1, BD_BAD_SHEET_LAYOUT},
    {24, 4, 32, BD_BAD_SHEET_LAYOUT}, {28, 2, 0, BD_BAD_SHEET_LAYOUT},   {2, 2, 5787, BD_BAD_SHEET_CONTENT},
};

/* With each length and each change, a sheet that is not the calendar's besides; and for no wing. */
static void changed_besides(uint64_t wing, size_t length)
{
    const size_t lengths[] = {0, 1, 15, 16, 31, 32, length - ROW, length - 1, length + 1, length + ROW};
    for (size_t i = 0; i < COUNT(lengths); ++i) {
        sheet_is("another length besides", lengths[i]);
        refused(wing, lengths[i], lengths[i] < HEADER ? BD_SHEET_TOO_SHORT : BD_BAD_SHEET_LAYOUT);
    }
    for (size_t i = 0; i < COUNT(CHANGES); ++i) {
        uint8_t *place = room + CHANGES[i].place;
        uint64_t was = number_at(place, CHANGES[i].bytes);
        put_number(place, CHANGES[i].number, CHANGES[i].bytes);
        sheet_is("changed besides", i);
        refused(wing, length, CHANGES[i].refusal);
        for (size_t k = 0; k < COUNT(BAD_WINGS); ++k) refused(BAD_WINGS[k], length, BD_BAD_WING);
        put_number(place, was, CHANGES[i].bytes);
    }
}

/* Of what can differ from the calendar the first is the first year's length, and the last is the wing of the last row. */
static void several_causes(uint64_t wing)
{
    size_t length = write_sheet(room, sizeof room, wing, 5787, 2);
    room[HEADER + 6] ^= 1;
    changed_besides(wing, length);
    room[HEADER + 6] ^= 1;
    room[length - 1] ^= 3;
    changed_besides(wing, length);
}

/* On a sheet, on too few bytes and on none, and on bytes that cannot be read. */
static void no_wings(void)
{
    for (uint64_t wing = 1; wing <= 2; ++wing) {
        size_t length = write_sheet(room, sizeof room, wing, 5787, 2);
        for (size_t i = 0; i < COUNT(BAD_WINGS); ++i) {
            bd_walker walker = {0};
            refused(BAD_WINGS[i], length, BD_BAD_WING), refused(BAD_WINGS[i], 15, BD_BAD_WING);
            same_refusal(BAD_WINGS[i], NULL, 0, BD_BAD_WING);
            same_answer("what cannot be read", bd_sheet_rows(BAD_WINGS[i], edge(), EDGE_ROOM, 5787), BD_BAD_WING, 0, 0);
            same("a walk on it", bd_walk_begin(&walker, BAD_WINGS[i], edge(), EDGE_ROOM), BD_BAD_WING);
            same("row of its walker", walker.row, UINT64_MAX);
        }
    }
}

void refusal_order(void)
{
    begin("which refusal of a sheet is given where several apply");
    no_wings();
    for (uint64_t wing = 1; wing <= 2; ++wing) several_causes(wing);
    end();
}
