/*
 * Loaded sheets: what was written is read back by year and row by row, the years' rows being all that is walked; two
 * sheets of which one is named; and the most rows and the fewest that fit the layout.
 */
#include <stdlib.h>
#include <string.h>

#include "check.h"

#include "bytes.h"
#include "edge.h"
#include "reader.h"

static uint8_t room[BD_SHEET_ROOM];

/* A year's rows stand in the sheet from a place on, and a walk that has come so far hands them out. Returns their end. */
static uint64_t year_read(const uint8_t *sheet, size_t length, uint64_t wing, uint64_t year, uint64_t offset,
                          bd_walker *walker)
{
    uint64_t list[BD_STRETCHES_ROOM];
    bd_list_answer stretches = bd_stretches(wing, year, list, COUNT(list));
    same_answer("a year's rows", bd_sheet_rows(wing, sheet, length, year), BD_DONE, offset, ROW * stretches.count);
    same_answer("a year's rows as read", read_rows(wing, sheet, length, year), BD_DONE, offset, ROW * stretches.count);
    for (uint64_t i = 0; i < stretches.count; ++i, offset += ROW) {
        bd_row row = bd_walk_next(walker, sheet, length);
        asking("row %" PRIu64 " of %" PRIu64 ", wing %" PRIu64, i, year, wing);
        same("more", row.more, 1), same("wing", row.wing, wing);
        same("first", row.first, list[2 * i]), same("length", row.length, list[2 * i + 1]);
        same("first in the year's rows", number_at(sheet + offset, 4), row.first);
        same("length in the year's rows", sheet[offset + 4], row.length);
        same("wing in the year's rows", sheet[offset + 5], row.wing);
    }
    return offset;
}

static void written(uint64_t wing, uint64_t first_year, uint64_t years)
{
    size_t length = write_sheet(room, sizeof room, wing, first_year, years);
    const uint8_t *sheet = before_edge(room, length);
    const uint64_t not_on_it[] = {0, first_year - 1, first_year + years, (UINT64_C(1) << 32) + first_year, UINT64_MAX};
    uint64_t offset = HEADER + ENTRY * years;
    bd_walker walker;

    asking("the sheet of wing %" PRIu64 " from %" PRIu64 " on, %" PRIu64 " years", wing, first_year, years);
    same("refusal of the walk", bd_walk_begin(&walker, wing, sheet, length), BD_DONE);
    for (uint64_t i = 0; i < years; ++i) offset = year_read(sheet, length, wing, first_year + i, offset, &walker);
    same("end of the last year's rows", offset, length);
    for (int i = 0; i < 3; ++i) same("a row behind the last", same_step(&walker, sheet, length), 0);
    same_walk(wing, sheet, length, ALL_STEPS);
    for (size_t i = 0; i < COUNT(not_on_it); ++i)
        same_answer("a year that is not on it", bd_sheet_rows(wing, sheet, length, not_on_it[i]), BD_BAD_YEAR, 0, 0);
    same("a byte of the sheet has changed", memcmp(sheet, room, length) != 0, 0);
}

/* Every year stands on one of these sheets, and each is accepted for its wing. */
static void all_years(uint64_t wing)
{
    for (uint64_t first_year = 1; first_year <= 9999; first_year += BD_SHEET_YEARS) {
        uint64_t years = first_year + BD_SHEET_YEARS <= 10000 ? BD_SHEET_YEARS : 10000 - first_year;
        size_t length = write_sheet(room, sizeof room, wing, first_year, years);
        same("refusal", same_rows(wing, before_edge(room, length), length, first_year + years - 1), BD_DONE);
    }
}

/* Bytes may begin where numbers of 64 bits may not. */
static void anywhere(void)
{
    static uint8_t moved[BD_SHEET_ROOM + 8];
    size_t length = write_sheet(room, sizeof room, BD_GUEST_WING, 5762, 2);
    for (size_t place = 0; place < 8; ++place) {
        memcpy(moved + place, room, length);
        same("refusal", same_rows(BD_GUEST_WING, moved + place, length, 5763), BD_DONE);
        same_walk(BD_GUEST_WING, moved + place, length, ALL_STEPS);
    }
}

/*
 * The sheet that is named answers, for the wing of its number. The other may be none, no sheet, the same one, or bytes that
 * cannot be read.
 */
static void two_sheets(void)
{
    static uint8_t one[BD_SHEET_ROOM], two[BD_SHEET_ROOM];
    size_t n = write_sheet(one, sizeof one, BD_WING_1, 5787, 20), m = write_sheet(two, sizeof two, BD_GUEST_WING, 5790, 1);
    for (uint64_t year = 5785; year < 5809; ++year) {
        same_named_rows(1, one, n, two, m, year), same_named_rows(2, one, n, two, m, year);
        same_named_rows(1, one, n, one, n, year), same_named_rows(2, one, n, one, n, year);
        same_named_rows(1, one, n, NULL, 0, year), same_named_rows(2, NULL, 0, two, m, year);
        same_named_rows(1, one, n, edge(), EDGE_ROOM, year), same_named_rows(2, edge(), EDGE_ROOM, two, m, year);
        same_named_rows(1, NULL, 0, two, m, year), same_named_rows(2, one, n, two, m - 1, year);
        same_named_rows(1, two, m, one, n, year), same_named_rows(2, two, m, one, n, year);
    }
    /* wing 1 has 58, 55, 53 and 60 stretches from 5787 on, and the guest wing 59 in 5790 */
    same_answer("5790 of sheet 1", bd_sheets_rows(1, one, n, two, m, 5790), BD_DONE, 176 + 6 * (58 + 55 + 53), 6 * 60);
    same_answer("5790 of sheet 2", bd_sheets_rows(2, one, n, two, m, 5790), BD_DONE, 24, 6 * 59);
    same_answer("5791 of sheet 2", bd_sheets_rows(2, one, n, two, m, 5791), BD_BAD_YEAR, 0, 0);
    same_answer("no sheet 2", bd_sheets_rows(2, one, n, NULL, 0, 5790), BD_SHEET_TOO_SHORT, 0, 0);
    same_answer("sheet 1 of the guest wing", bd_sheets_rows(1, two, m, one, n, 5790), BD_BAD_SHEET_CONTENT, 0, 0);
    same_answer("sheet 2 of wing 1", bd_sheets_rows(2, two, m, one, n, 5790), BD_BAD_SHEET_CONTENT, 0, 0);
    for (size_t i = 0; i < COUNT(BAD_WINGS); ++i) {
        uint64_t neither = BAD_WINGS[i];
        same_answer("neither sheet", bd_sheets_rows(neither, one, n, two, m, 5790), BD_BAD_WING, 0, 0);
        same_answer("neither sheet, no year", bd_sheets_rows(neither, one, n, two, m, 0), BD_BAD_WING, 0, 0);
        same_answer("neither of none", bd_sheets_rows(neither, NULL, 0, NULL, 0, 5790), BD_BAD_WING, 0, 0);
        same_answer("neither of two that cannot be read",
                    bd_sheets_rows(neither, edge(), EDGE_ROOM, edge(), EDGE_ROOM, 5790), BD_BAD_WING, 0, 0);
    }
}

/* The most that header and index can tell of: 100 years of 65,535 rows. No year has so many; a walker may stand there. */
static void most_rows(void)
{
    enum { YEARS = BD_SHEET_YEARS, ROWS = 65535, ALL = YEARS * ROWS, ROWS_OFFSET = HEADER + ENTRY * YEARS };
    size_t length = ROWS_OFFSET + ROW * ALL;
    uint8_t *sheet = calloc(length, 1), *at = sheet;
    asking("memory for %zu bytes", length);
    same("calloc failed", sheet == NULL, 0);
    at = put_number(put_number(put_number(at, YEARS, 2), 9900, 2), ALL, 4);
    at = put_number(put_number(at, HEADER, 4), ROWS_OFFSET, 4);
    for (uint64_t i = 0; i < YEARS; ++i) {
        at = put_number(put_number(at, ROWS_OFFSET + i * ROW * ROWS, 4), ROWS, 2);
        at = put_number(at, bd_year(9900 + i).length, 2);
    }
    for (uint64_t row = 0; row < ALL; row += 9973) put_number(at + ROW * row, row + 1, 4);

    sheet_is("the sheet of the most rows", 0);
    for (uint64_t wing = 1; wing <= 2; ++wing) {
        same_answer("its last year", bd_sheet_rows(wing, sheet, length, 9999), BD_BAD_SHEET_CONTENT, 0, 0);
        same_answer("a year that is not on it", bd_sheet_rows(wing, sheet, length, 9899), BD_BAD_SHEET_CONTENT, 0, 0);
        same_walk(wing, sheet, length, ALL_STEPS);
    }
    for (uint64_t row = 0; row < ALL + 20000; row += 9973) {
        bd_walker walker = {row};
        same("a row is handed out", same_step(&walker, sheet, length), row < ALL);
    }
    bd_walker walker = {ALL - 1};
    same("the last row", same_step(&walker, sheet, length), 1);
    same("a row behind the last", same_step(&walker, sheet, length), 0);
    free(sheet);
}

/* The years' lengths are the calendar's, and there are no rows. */
static void no_rows(void)
{
    enum { LENGTH = HEADER + 3 * ENTRY };
    uint8_t *at = put_number(put_number(put_number(room, 3, 2), 5762, 2), 0, 4);
    at = put_number(put_number(at, HEADER, 4), LENGTH, 4);
    for (uint64_t year = 5762; year < 5765; ++year)
        at = put_number(put_number(put_number(at, LENGTH, 4), 0, 2), bd_year(year).length, 2);
    const uint8_t *sheet = before_edge(room, LENGTH);
    sheet_is("the sheet without rows", 0);
    for (uint64_t wing = 1; wing <= 2; ++wing) {
        for (uint64_t year = 5761; year <= 5765; ++year)
            same_answer("a year without rows", bd_sheet_rows(wing, sheet, LENGTH, year), BD_BAD_SHEET_CONTENT, 0, 0);
        same_walk(wing, sheet, LENGTH, ALL_STEPS);
    }
}

void loaded(void)
{
    static const uint64_t sheets[][2] = {{1, 1},     {5762, 1}, {5775, 1},  {9999, 1},   {5786, 3},
                                         {5787, 20}, {1, 100},  {458, 100}, {5700, 100}, {9900, 100}};
    begin("loaded sheets, by year and row by row, and the one of two that is named");
    for (uint64_t wing = 1; wing <= 2; ++wing) {
        for (size_t i = 0; i < COUNT(sheets); ++i) written(wing, sheets[i][0], sheets[i][1]);
        all_years(wing);
    }
    anywhere();
    two_sheets();
    most_rows();
    no_rows();
    end();
}
