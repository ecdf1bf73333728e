/*
 * Sheets that fit the layout and are not the calendar's for the wing that is named: last year's, an older year's, the other
 * wing's, and written ones with a number, a count or a place changed.
 */
#include <string.h>

#include "check.h"

#include "bytes.h"
#include "edge.h"
#include "reader.h"

enum { ROOM = BD_SHEET_ROOM + ROW };

static uint8_t room[ROOM], other[ROOM];

static uint8_t *entry_of(uint8_t *sheet, uint64_t i) { return sheet + HEADER + ENTRY * i; }
static uint8_t *rows_of(uint8_t *sheet) { return sheet + HEADER + ENTRY * number_at(sheet, 2); }

/* Fits the layout, and is not the calendar's. */
static void differs(uint64_t wing, const uint8_t *sheet, size_t length)
{
    same_refusal(wing, before_edge(sheet, length), length, BD_BAD_SHEET_CONTENT);
}

/* What a panel took: the years go on by one, and all else is last year's. */
static void last_years(uint64_t wing, uint64_t first_year, uint64_t years)
{
    size_t length = write_sheet(room, ROOM, wing, first_year, years);
    put_number(room + 2, first_year + 1, 2);
    differs(wing, room, length);
}

/* The rows of an older year of the same kind, in its numbers of rows and of days, under a year's own header and index. */
static void older_rows(uint64_t wing, uint64_t year)
{
    uint64_t older = year - 1;
    while (bd_kind(older).kind != bd_kind(year).kind) --older;
    size_t length = write_sheet(room, ROOM, wing, year, 1);
    same("its size", write_sheet(other, ROOM, wing, older, 1), length);
    memcpy(rows_of(room), rows_of(other), length - HEADER - ENTRY);
    differs(wing, room, length);
}

/* Each wing's sheet named as the other's; and with the other's number in every row, as either's. */
static void exchanged_wings(uint64_t first_year, uint64_t years)
{
    for (uint64_t wing = 1; wing <= 2; ++wing) {
        size_t length = write_sheet(room, ROOM, wing, first_year, years);
        differs(3 - wing, room, length);
        for (uint8_t *row = rows_of(room); row < room + length; row += ROW) row[5] = (uint8_t)(3 - wing);
        differs(wing, room, length), differs(3 - wing, room, length);
    }
}

/* A number of a written sheet becomes each of these, but for the one that it was. */
static void each_of(uint64_t wing, size_t length, uint8_t *place, int bytes, const uint64_t *numbers, size_t count)
{
    uint64_t was = number_at(place, bytes);
    for (size_t i = 0; i < count; ++i) {
        uint64_t number = bytes == 4 ? (uint32_t)numbers[i] : numbers[i];
        if (number == was) continue;
        put_number(place, number, bytes);
        if (i == 0)
            differs(wing, room, length);
        else
            same("refusal", same_rows(wing, room, length, number_at(room + 2, 2)), BD_BAD_SHEET_CONTENT);
    }
    put_number(place, was, bytes);
}

/* Of the first year, of every so many after it, and of the last. */
static void year_lengths(uint64_t wing, uint64_t first_year, uint64_t years, uint64_t every)
{
    size_t length = write_sheet(room, ROOM, wing, first_year, years);
    for (uint64_t i = 0; i < years; ++i) {
        uint64_t days = bd_year(first_year + i).length;
        const uint64_t numbers[] = {days + 1, days - 1, days + 256, 0, 65535, 353, 354, 355, 383, 384, 385};
        sheet_is("the length of year", first_year + i);
        if (i % every == 0 || i + 1 == years) each_of(wing, length, entry_of(room, i) + 6, 2, numbers, COUNT(numbers));
    }
}

/* Of the first row, of every so many after it, and of the last: its day, its length and its wing. */
static void rows(uint64_t wing, uint64_t first_year, uint64_t years, uint64_t every)
{
    size_t length = write_sheet(room, ROOM, wing, first_year, years), all = number_at(room + 4, 4);
    for (uint64_t i = 0; i < all; ++i) {
        uint8_t *row = rows_of(room) + ROW * i;
        uint64_t day = number_at(row, 4);
        const uint64_t days[] = {day + 1, day - 1, day + 7, day - 7, day + 354, 0, day + 65536, day + (UINT64_C(1) << 24),
                                 UINT32_MAX};
        const uint64_t lengths[] = {row[4] + 1u, row[4] - 1u, 0, 255}, wings[] = {3 - wing, 0, 3, wing + 128};
        if (i % every != 0 && i + 1 < all) continue;
        sheet_is("row", i);
        each_of(wing, length, row, 4, days, COUNT(days));
        each_of(wing, length, row + 4, 1, lengths, COUNT(lengths));
        each_of(wing, length, row + 5, 1, wings, COUNT(wings));
    }
}

/* Every row as it was written, but a year's last is the next year's, or its next the year's own. */
static void other_counts(uint64_t wing)
{
    for (uint64_t i = 0; i < 2; ++i)
        for (int by = -1; by <= 1; by += 2) {
            size_t length = write_sheet(room, ROOM, wing, 5786, 3);
            uint8_t *entry = entry_of(room, i), *next = entry + ENTRY;
            put_number(entry + 4, number_at(entry + 4, 2) + (uint64_t)by, 2);
            put_number(next + 4, number_at(next + 4, 2) - (uint64_t)by, 2);
            put_number(next, number_at(next, 4) + (uint64_t)(ROW * by), 4);
            sheet_is("a row goes over, between years", i);
            differs(wing, room, length);
        }
}

/* The last row goes, or comes once more. */
static void other_ends(uint64_t wing)
{
    for (int by = -1; by <= 1; by += 2) {
        size_t length = write_sheet(room, ROOM, wing, 5786, 3);
        uint8_t *last = entry_of(room, 2);
        memcpy(room + length, room + length - ROW, ROW);
        put_number(room + 4, number_at(room + 4, 4) + (uint64_t)by, 4);
        put_number(last + 4, number_at(last + 4, 2) + (uint64_t)by, 2);
        sheet_is("other rows at the end, wing", wing);
        differs(wing, room, length + (size_t)(ROW * by));
    }
}

/* Two rows next to each other change places, of one year or of two. */
static void exchanged_rows(uint64_t wing)
{
    size_t length = write_sheet(room, ROOM, wing, 5786, 3);
    for (uint8_t *row = rows_of(room); row + ROW < room + length; row += ROW) {
        uint8_t first[ROW], second[ROW];
        memcpy(first, row, ROW), memcpy(second, row + ROW, ROW);
        memcpy(row, second, ROW), memcpy(row + ROW, first, ROW);
        sheet_is("rows exchanged, from byte", (uint64_t)(row - room));
        same("refusal", same_rows(wing, room, length, 5786), BD_BAD_SHEET_CONTENT);
        memcpy(row, first, ROW), memcpy(row + ROW, second, ROW);
    }
    same("refusal of the sheet as it was", same_rows(wing, room, length, 5788), BD_DONE);
}

void content(void)
{
    static const uint64_t sheets[][2] = {{1, 1}, {5787, 1}, {9998, 1}, {5786, 3}, {5787, 20}, {1, 100}, {9899, 100}};
    begin("sheets that fit the layout and are not the calendar's for the wing that is named");
    for (size_t i = 0; i < COUNT(sheets); ++i) exchanged_wings(sheets[i][0], sheets[i][1]);
    for (uint64_t wing = 1; wing <= 2; ++wing) {
        for (size_t i = 0; i < COUNT(sheets); ++i) last_years(wing, sheets[i][0], sheets[i][1]);
        for (uint64_t year = 5700; year < 5800; ++year) last_years(wing, year, 1), older_rows(wing, year);
        year_lengths(wing, 5786, 3, 1), year_lengths(wing, 5700, 100, 33);
        rows(wing, 5786, 3, 1), rows(wing, 5700, 100, 1000);
        other_counts(wing), other_ends(wing), exchanged_rows(wing);
    }
    end();
}
