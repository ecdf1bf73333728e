/* Bytes that are no sheet, each refusal by its cause; and walkers that were not begun on the bytes that they are given. */
#include <string.h>

#include "check.h"

#include "bytes.h"
#include "edge.h"
#include "reader.h"

static uint8_t room[BD_SHEET_ROOM];

/* The layout is one for both wings. */
static void refused(const uint8_t *sheet, size_t length, uint64_t refusal)
{
    for (uint64_t wing = 1; wing <= 2; ++wing) same_refusal(wing, sheet, length, refusal);
}

/* Every length but the true one. */
static void lengths(void)
{
    size_t length = write_sheet(room, sizeof room, BD_WING_1, 5762, 2);
    refused(NULL, 0, BD_SHEET_TOO_SHORT);
    for (size_t n = 0; n < length + 20; ++n)
        if (n != length) refused(before_edge(room, n), n, n < HEADER ? BD_SHEET_TOO_SHORT : BD_BAD_SHEET_LAYOUT);
}

/*
 * Headers over wing 1's index and 56 rows of 5762. Cut to 32 bits, 6 times 56 + 2^31 is 6 times 56, 6 times 0x2AAAAAAB is 2,
 * and a year of 0x55555554 rows and 100 years of 0x555554D0 take 16 bytes.
 */
static const struct {
    uint64_t years, first_year, rows, index, rows_offset, refusal;
} HEADERS[] = {
    {1, 5762, 56, 16, 24, BD_DONE},
    {1, 1, 56, 16, 24, BD_BAD_SHEET_CONTENT},
    {1, 5763, 56, 16, 24, BD_BAD_SHEET_CONTENT},
    {1, 9999, 56, 16, 24, BD_BAD_SHEET_CONTENT},
    {0, 5762, 56, 16, 24, BD_BAD_SHEET_YEARS},
    {101, 5762, 56, 16, 24, BD_BAD_SHEET_YEARS},
    {101, 5762, 56, 16, 16 + 8 * 101, BD_BAD_SHEET_YEARS},
    {257, 5762, 56, 16, 24, BD_BAD_SHEET_YEARS},
    {65535, 5762, 56, 16, 24, BD_BAD_SHEET_YEARS},
    {1, 0, 56, 16, 24, BD_BAD_SHEET_YEARS},
    {1, 10000, 56, 16, 24, BD_BAD_SHEET_YEARS},
    {1, 65535, 56, 16, 24, BD_BAD_SHEET_YEARS},
    {2, 65535, 56, 16, 24, BD_BAD_SHEET_YEARS},
    {2, 9999, 56, 16, 32, BD_BAD_SHEET_YEARS},
    {100, 9901, 56, 16, 816, BD_BAD_SHEET_YEARS},
    {65535, 65535, UINT32_MAX, UINT32_MAX, UINT32_MAX, BD_BAD_SHEET_YEARS},
    {0, 0, 0, 0, 0, BD_BAD_SHEET_YEARS},
    {100, 9900, 56, 16, 816, BD_BAD_SHEET_LAYOUT},
    {100, 9900, UINT32_MAX, UINT32_MAX, UINT32_MAX, BD_BAD_SHEET_LAYOUT},
    {2, 5762, 56, 16, 24, BD_BAD_SHEET_LAYOUT},
    {2, 5762, 56, 16, 32, BD_BAD_SHEET_LAYOUT},
    {1, 5762, 0, 16, 24, BD_BAD_SHEET_LAYOUT},
    {1, 5762, 55, 16, 24, BD_BAD_SHEET_LAYOUT},
    {1, 5762, 57, 16, 24, BD_BAD_SHEET_LAYOUT},
    {1, 5762, 56 + 256, 16, 24, BD_BAD_SHEET_LAYOUT},
    {1, 5762, 56 + 65536, 16, 24, BD_BAD_SHEET_LAYOUT},
    {1, 5762, UINT64_C(1) << 31, 16, 24, BD_BAD_SHEET_LAYOUT},
    {1, 5762, 56 + (UINT64_C(1) << 31), 16, 24, BD_BAD_SHEET_LAYOUT},
    {1, 5762, 0x2AAAAAAB, 16, 24, BD_BAD_SHEET_LAYOUT},
    {1, 5762, 0x55555554, 16, 24, BD_BAD_SHEET_LAYOUT},
    {100, 9900, 0x555554D0, 16, 816, BD_BAD_SHEET_LAYOUT},
    {1, 5762, UINT32_MAX, 16, 24, BD_BAD_SHEET_LAYOUT},
    {1, 5762, 56, 0, 24, BD_BAD_SHEET_LAYOUT},
    {1, 5762, 56, 15, 24, BD_BAD_SHEET_LAYOUT},
    {1, 5762, 56, 24, 24, BD_BAD_SHEET_LAYOUT},
    {1, 5762, 56, 16 + 65536, 24, BD_BAD_SHEET_LAYOUT},
    {1, 5762, 56, UINT32_MAX, 24, BD_BAD_SHEET_LAYOUT},
    {1, 5762, 56, 16, 16, BD_BAD_SHEET_LAYOUT},
    {1, 5762, 56, 16, 23, BD_BAD_SHEET_LAYOUT},
    {1, 5762, 56, 16, 30, BD_BAD_SHEET_LAYOUT},
    {1, 5762, 56, 16, 24 + 65536, BD_BAD_SHEET_LAYOUT},
    {1, 5762, 56, 16, UINT32_MAX, BD_BAD_SHEET_LAYOUT},
};

static void put_header(size_t i)
{
    uint8_t *at = put_number(put_number(room, HEADERS[i].years, 2), HEADERS[i].first_year, 2);
    put_number(put_number(put_number(at, HEADERS[i].rows, 4), HEADERS[i].index, 4), HEADERS[i].rows_offset, 4);
    sheet_is("header", i);
}

/* Over the whole sheet, and alone: what a header tells of need not be there. */
static void headers(void)
{
    size_t length = write_sheet(room, sizeof room, BD_WING_1, 5762, 1);
    for (size_t i = 0; i < COUNT(HEADERS); ++i) {
        uint64_t refusal = HEADERS[i].refusal;
        put_header(i);
        const uint8_t *sheet = before_edge(room, length);
        same_walk(BD_WING_1, sheet, length, ALL_STEPS);
        if (refusal == BD_DONE)
            same_answer("5762", bd_sheet_rows(BD_WING_1, sheet, length, 5762), BD_DONE, 24, 6 * 56);
        else
            refused(sheet, length, refusal);
        refused(before_edge(room, HEADER), HEADER, refusal == BD_BAD_SHEET_YEARS ? refusal : BD_BAD_SHEET_LAYOUT);
    }
}

/* Index entries of 5762 and 5763, which have 56 and 58 rows: offset and count of each. The last is a sum cut to 16 bits. */
static const uint64_t INDEXES[][4] = {
    {32, 57, 368, 57}, {32, 55, 368, 59}, {32, 56, 32, 58},         {32, 58, 368, 56},
    {0, 56, 336, 58},  {16, 56, 352, 58}, {31, 56, 367, 58},        {32 + 65536, 56, 368, 58},
    {32, 56, 367, 58}, {32, 56, 369, 58}, {32, 56, 368 + 6, 58},    {32, 56, 368, 57},
    {32, 56, 368, 59}, {32, 0, 368, 58},  {32, 56, UINT32_MAX, 58}, {32, 56 + 32768, 368 + 6 * 32768, 58 + 32768},
};

static void indexes(void)
{
    size_t length = write_sheet(room, sizeof room, BD_WING_1, 5762, 2);
    for (size_t i = 0; i < COUNT(INDEXES); ++i) {
        for (int k = 0; k < 2; ++k) {
            put_number(room + HEADER + ENTRY * k, INDEXES[i][2 * k], 4);
            put_number(room + HEADER + ENTRY * k + 4, INDEXES[i][2 * k + 1], 2);
        }
        sheet_is("index", i);
        refused(before_edge(room, length), length, BD_BAD_SHEET_LAYOUT);
    }
}

/* The numbers of walkers: about the end of a sheet, and those whose sixfold is a small number where it is cut. */
static const uint64_t NUMBERS[] = {
    0, 1, 54, 55, 56, 57, 58, 255, 256, 65535, 65536, 0x2AAAAAA8, 0x2AAAAAAA, 0x2AAAAAAB, 0x2AAAAAAC, 0x55555555, 0x55555556,
    UINT64_C(1) << 31, UINT32_MAX - UINT64_C(1), UINT32_MAX, UINT64_C(1) << 32, (UINT64_C(1) << 32) + 1,
    UINT64_C(0x2AAAAAAAAAAAAAA8), UINT64_C(0x2AAAAAAAAAAAAAAA), UINT64_C(0x2AAAAAAAAAAAAAAB), UINT64_C(0x5555555555555556),
    UINT64_C(1) << 63, UINT64_MAX - 1, UINT64_MAX,
};

/* A walker of each number, until its walk ends: after no more rows than there are bytes for. */
static void walkers(const uint8_t *sheet, size_t length)
{
    for (size_t i = 0; i < COUNT(NUMBERS); ++i) {
        bd_walker walker = {NUMBERS[i]};
        size_t steps = 0;
        while (steps <= length / ROW && same_step(&walker, sheet, length)) ++steps;
        same("too many rows", steps > length / ROW, 0);
        same("a row behind the last", same_step(&walker, sheet, length), 0);
    }
}

static void made_otherwise(void)
{
    size_t length = write_sheet(room, sizeof room, BD_WING_1, 5762, 1);
    walkers(NULL, 0);
    for (size_t n = 0; n < length + 20; n += n < 40 || n > length - 10 ? 1 : 29) walkers(before_edge(room, n), n);
    for (size_t i = 0; i < COUNT(HEADERS); ++i) {
        put_header(i);
        walkers(before_edge(room, length), length);
        walkers(before_edge(room, HEADER), HEADER);
    }
}

/* Walks that go on with other bytes than they were begun on. */
static void exchanged(void)
{
    static uint8_t four[BD_SHEET_ROOM];
    size_t n = write_sheet(four, sizeof four, BD_GUEST_WING, 5786, 4);
    size_t m = write_sheet(room, sizeof room, BD_WING_1, 5762, 1);
    const uint8_t *one = before_edge(room, m);
    bd_walker walker;

    same("refusal of four years", bd_walk_begin(&walker, BD_GUEST_WING, four, n), BD_DONE);
    for (int i = 0; i < 100; ++i) same("a row of four years", same_step(&walker, four, n), 1);
    same("row 100 of one year", same_step(&walker, one, m), 0);
    same("row 100 of four years", same_step(&walker, four, n), 1);

    same("refusal of one year", bd_walk_begin(&walker, BD_WING_1, one, m), BD_DONE);
    for (int i = 0; i < 56; ++i) same("a row of one year", same_step(&walker, one, m), 1);
    same("row 56 of one year", same_step(&walker, one, m), 0);
    same("row 56 of four years", same_step(&walker, four, n), 1);

    same("refusal of too few bytes", bd_walk_begin(&walker, BD_GUEST_WING, four, n - 1), BD_BAD_SHEET_LAYOUT);
    same("a row where the walk was refused", same_step(&walker, four, n), 0);
    same("refusal of the other wing's", bd_walk_begin(&walker, BD_WING_1, four, n), BD_BAD_SHEET_CONTENT);
    same("a row where the other wing's was refused", same_step(&walker, four, n), 0);
}

void no_sheets(void)
{
    begin("what is no sheet, and walkers that were not begun on it");
    lengths();
    headers();
    indexes();
    made_otherwise();
    exchanged();
    end();
}
