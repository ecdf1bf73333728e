/*
 * Sheets, byte by byte, against a writer of this file's own, which shares the layout with the archive and nothing else:
 * the years and the stretches are those that the walks over years and days found.
 */
#include "check.h"

#include "bytes.h"
#include "walk.h"

/* The rows of all years before one, by wing. */
static uint64_t rows_before[WINGS + 1][YEARS + 2];

static void count_rows(void)
{
    uint64_t list[2 * MOST_DAYS];
    for (uint64_t wing = 1; wing <= WINGS; ++wing)
        for (uint64_t year = 1; year <= YEARS; ++year)
            rows_before[wing][year + 1] = rows_before[wing][year] + find_stretches(wing, year, list) / 2;
}

static uint64_t rows(uint64_t wing, uint64_t first_year, uint64_t years)
{
    return rows_before[wing][first_year + years] - rows_before[wing][first_year];
}

static uint64_t rows_offset(uint64_t years) { return 16 + 8 * years; }

static uint64_t size(uint64_t wing, uint64_t first_year, uint64_t years)
{
    return rows_offset(years) + 6 * rows(wing, first_year, years);
}

static uint8_t sheet[BD_SHEET_ROOM];
static size_t written;

/* Puts a number behind what is written. */
static void put(uint64_t number, int bytes) { written = (size_t)(put_number(sheet + written, number, bytes) - sheet); }

static void write_sheet(uint64_t wing, uint64_t first_year, uint64_t years)
{
    uint64_t list[2 * MOST_DAYS];
    asking("the test's own sheet, wing %" PRIu64 ", year %" PRIu64 ", %" PRIu64 " years", wing, first_year, years);
    written = 0;
    put(years, 2), put(first_year, 2), put(rows(wing, first_year, years), 4), put(16, 4), put(rows_offset(years), 4);
    for (uint64_t i = 0; i < years; ++i) {
        put(rows_offset(years) + 6 * rows(wing, first_year, i), 4);
        put(rows(wing, first_year + i, 1), 2), put(year_length(first_year + i), 2);
    }
    for (uint64_t i = 0; i < years; ++i) {
        uint64_t n = find_stretches(wing, first_year + i, list);
        for (uint64_t k = 0; k < n; k += 2) put(list[k], 4), put(list[k + 1], 1), put(wing, 1);
    }
    same("size", written, size(wing, first_year, years));
}

/* How wing 1's sheet of 5762 alone begins, worked out by hand: its header, its one index entry and its first row. */
static const uint8_t BEGINS_5762[] = {
    1, 0, 0x82, 0x16, 56, 0, 0, 0, 16, 0, 0, 0, 24, 0, 0, 0, /* 5762 is 0x1682 */
    24, 0, 0, 0, 56, 0, 0x62, 0x01, /* 354 is 0x162 */
    0xcb, 0x6a, 0x25, 0, 2, 1, /* 2,452,171 is 0x256acb */
};

static void by_hand(void)
{
    write_sheet(BD_WING_1, 5762, 1);
    for (size_t i = 0; i < COUNT(BEGINS_5762); ++i) same("byte", sheet[i], BEGINS_5762[i]);
}

enum { AROUND = 8, LONGER = 100, ROOM = BD_SHEET_ROOM + LONGER };

static uint8_t room[AROUND + ROOM + AROUND];

static uint8_t guard(size_t place) { return (uint8_t)(GUARD + place); }

/*
 * Lends `length` bytes from a place of the room on: the answer is as wanted, the sheet stands at their start if it is
 * done, and every other byte is as it was.
 */
static void lend(uint64_t wing, uint64_t first_year, uint64_t years, size_t place, size_t length, uint64_t refusal,
                 uint64_t count)
{
    size_t end = place + (refusal == BD_DONE ? count : 0);
    for (size_t i = 0; i < COUNT(room); ++i) room[i] = guard(i);
    bd_list_answer got = bd_sheet_write(wing, first_year, years, room + place, length);
    asking("bd_sheet_write(%" PRIu64 ", %" PRIu64 ", %" PRIu64 ", out, %zu)", wing, first_year, years, length);
    same("refusal", got.refusal, refusal), same("count", got.count, count);
    for (size_t i = 0; i < COUNT(room); ++i) {
        int inside = i >= place && i < end;
        same(inside ? "byte" : "byte beyond the sheet", room[i], inside ? sheet[i - place] : guard(i));
    }
}

/* NULL and 0 ask for the room. */
static void no_bytes(uint64_t wing, uint64_t first_year, uint64_t years, uint64_t refusal, uint64_t count)
{
    bd_list_answer got = bd_sheet_write(wing, first_year, years, NULL, 0);
    asking("bd_sheet_write(%" PRIu64 ", %" PRIu64 ", %" PRIu64 ", NULL, 0)", wing, first_year, years);
    same("refusal", got.refusal, refusal), same("count", got.count, count);
}

/* `most` bytes hold any sheet of the wing, and no fewer do. */
static void most_bytes(uint64_t wing, uint64_t most)
{
    uint64_t found = 0;
    for (uint64_t year = 1; year + BD_SHEET_YEARS <= YEARS + 1; ++year) {
        uint64_t n = size(wing, year, BD_SHEET_YEARS);
        if (n > found) found = n;
    }
    asking("the sheets of wing %" PRIu64, wing);
    same("the most bytes", found, most);
    for (uint64_t year = 1; year + BD_SHEET_YEARS <= YEARS + 1; ++year) {
        uint64_t n = size(wing, year, BD_SHEET_YEARS);
        if (n == most || year % 397 == 1) no_bytes(wing, year, BD_SHEET_YEARS, BD_BUFFER_TOO_SHORT, n);
    }
}

/* A whole sheet, into too few bytes, just enough and more. */
static void whole(uint64_t wing, uint64_t first_year, uint64_t years)
{
    uint64_t n = size(wing, first_year, years);
    write_sheet(wing, first_year, years);
    no_bytes(wing, first_year, years, BD_BUFFER_TOO_SHORT, n);
    lend(wing, first_year, years, AROUND, 0, BD_BUFFER_TOO_SHORT, n);
    lend(wing, first_year, years, AROUND, n - 1, BD_BUFFER_TOO_SHORT, n);
    lend(wing, first_year, years, AROUND, n, BD_DONE, n);
    lend(wing, first_year, years, AROUND, n + 1, BD_DONE, n);
    lend(wing, first_year, years, AROUND, ROOM, BD_DONE, n);
}

/* Every year stands on one of these sheets. */
static void all_years(uint64_t wing)
{
    for (uint64_t year = 1; year <= YEARS; year += BD_SHEET_YEARS) {
        uint64_t years = year + BD_SHEET_YEARS <= YEARS + 1 ? BD_SHEET_YEARS : YEARS + 1 - year;
        write_sheet(wing, year, years);
        lend(wing, year, years, AROUND, written, BD_DONE, written);
    }
}

/* Bytes may begin where numbers of 64 bits may not. */
static void anywhere(uint64_t wing)
{
    write_sheet(wing, 5762, 1);
    for (size_t place = AROUND; place < AROUND + 8; ++place) lend(wing, 5762, 1, place, written, BD_DONE, written);
}

/* Refused whatever is lent: more room than enough, none, or no buffer. */
static void refused(uint64_t wing, uint64_t first_year, uint64_t years, uint64_t refusal)
{
    lend(wing, first_year, years, AROUND, ROOM, refusal, 0);
    lend(wing, first_year, years, AROUND, 0, refusal, 0);
    no_bytes(wing, first_year, years, refusal, 0);
}

typedef struct {
    uint64_t first_year, years, refusal;
} question;

static const question GOOD[] = {
    {1, 1, BD_DONE},
    {5762, 1, BD_DONE},
    {5775, 1, BD_DONE},
    {9999, 1, BD_DONE},
    {5786, 3, BD_DONE},
    {5787, 20, BD_DONE},
    {1, BD_SHEET_YEARS, BD_DONE},
    {5700, BD_SHEET_YEARS, BD_DONE},
    {9900, BD_SHEET_YEARS, BD_DONE},
};

/*
 * The numbers beside the good ones, some whose low half is a good number, and the largest: a sum of 64 bits would have
 * good years follow UINT64_MAX.
 */
static const question BAD[] = {
    {5787, 0, BD_BAD_YEAR_COUNT},
    {5787, BD_SHEET_YEARS + 1, BD_BAD_YEAR_COUNT},
    {5787, (UINT64_C(1) << 32) + 20, BD_BAD_YEAR_COUNT},
    {5787, UINT64_MAX, BD_BAD_YEAR_COUNT},
    {0, 0, BD_BAD_YEAR_COUNT},
    {0, UINT64_MAX, BD_BAD_YEAR_COUNT},
    {9900, BD_SHEET_YEARS + 1, BD_BAD_YEAR_COUNT},
    {10000, BD_SHEET_YEARS + 1, BD_BAD_YEAR_COUNT},
    {UINT64_MAX, 0, BD_BAD_YEAR_COUNT},
    {UINT64_MAX, UINT64_MAX, BD_BAD_YEAR_COUNT},
    {0, 1, BD_BAD_YEAR},
    {0, 2, BD_BAD_YEAR},
    {0, BD_SHEET_YEARS, BD_BAD_YEAR},
    {10000, 1, BD_BAD_YEAR},
    {9999, 2, BD_BAD_YEAR},
    {9901, BD_SHEET_YEARS, BD_BAD_YEAR},
    {(UINT64_C(1) << 32) + 5787, 20, BD_BAD_YEAR},
    {UINT64_MAX, 1, BD_BAD_YEAR},
    {UINT64_MAX, 3, BD_BAD_YEAR},
    {UINT64_MAX, BD_SHEET_YEARS, BD_BAD_YEAR},
};

void sheets(void)
{
    begin("sheets of both wings, and the bytes that are lent for them");
    count_rows();
    most_bytes(BD_WING_1, BD_SHEET_ROOM);
    most_bytes(BD_GUEST_WING, 34098);
    by_hand();
    for (uint64_t wing = 1; wing <= WINGS; ++wing) {
        for (size_t i = 0; i < COUNT(GOOD); ++i) whole(wing, GOOD[i].first_year, GOOD[i].years);
        for (size_t i = 0; i < COUNT(BAD); ++i) refused(wing, BAD[i].first_year, BAD[i].years, BAD[i].refusal);
        anywhere(wing);
        all_years(wing);
    }
    /* A bad wing comes before every other refusal. */
    for (size_t w = 0; w < COUNT(BAD_WINGS); ++w) {
        refused(BAD_WINGS[w], 5787, 20, BD_BAD_WING);
        for (size_t i = 0; i < COUNT(BAD); ++i) refused(BAD_WINGS[w], BAD[i].first_year, BAD[i].years, BD_BAD_WING);
    }
    end();
}
