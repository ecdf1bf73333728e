/* Sheets that were written and then changed: a byte at a time, and by chance, which is the same each time. */
#include <stdio.h>
#include <string.h>

#include "check.h"

#include "bytes.h"
#include "edge.h"
#include "reader.h"

/* Every byte of a year's sheet becomes every other, and none is accepted; a walk is begun on every eighth of these. */
static void each_byte(void)
{
    uint8_t sheet[HEADER + ENTRY + ROW * BD_STRETCHES_ROOM / 2];
    size_t length = write_sheet(sheet, sizeof sheet, BD_GUEST_WING, 5775, 1);
    for (size_t i = 0; i < length; ++i) {
        const uint8_t was = sheet[i];
        sheet_is("changed at byte", i);
        for (int by = 1; by < 256; ++by) {
            bd_walker walker = {i < HEADER + ENTRY ? 0 : (i - HEADER - ENTRY) / ROW};
            sheet[i] = (uint8_t)(was + by);
            const uint8_t *lent = before_edge(sheet, length);
            same("accepted", same_rows(BD_GUEST_WING, lent, length, 5775) == BD_DONE, 0);
            same_step(&walker, lent, length); /* the row in which the byte stands */
            if (by % 8 == 1) same_walk(BD_GUEST_WING, lent, length, ALL_STEPS);
        }
        sheet[i] = was;
    }
}

enum { MOST_YEARS = 4, SPARE = 24, ROOM = HEADER + MOST_YEARS * (ENTRY + ROW * BD_STRETCHES_ROOM / 2) + SPARE };

/* A sheet of 1 to 4 years, as it was written or changed, with bytes to spare behind it. */
typedef struct {
    uint8_t bytes[ROOM];
    size_t length;
    uint64_t wing, years;
} small_sheet;

/* By wing and count of years, from 0. */
static small_sheet whole[2][MOST_YEARS];

static void write_small(void)
{
    static const uint64_t first_years[MOST_YEARS] = {1, 5762, 5786, 9996};
    for (uint64_t wing = 0; wing < 2; ++wing)
        for (uint64_t i = 0; i < MOST_YEARS; ++i) {
            small_sheet *small = &whole[wing][i];
            memset(small->bytes, 0xC3, ROOM);
            small->length = write_sheet(small->bytes, ROOM - SPARE, wing + 1, first_years[i], i + 1);
            small->wing = wing + 1;
            small->years = i + 1;
        }
}

static uint64_t chance = 5787;

static uint64_t any(void)
{
    chance = chance * UINT64_C(6364136223846793005) + UINT64_C(1442695040888963407);
    return chance >> 32;
}

static uint64_t below(uint64_t n) { return any() % n; }

static const small_sheet *any_small(void)
{
    uint64_t i = below(2 * MOST_YEARS);
    return &whole[i % 2][i / 2];
}

/* Adds to a number of a sheet, or takes from it by adding what is below zero, round the numbers that its bytes hold. */
static void grow(uint8_t *place, int bytes, uint64_t by)
{
    uint64_t sum = number_at(place, bytes) + by;
    put_number(place, bytes == 4 ? (uint32_t)sum : (uint16_t)sum, bytes);
}

/* A number of the header or of an index entry becomes one near it, or the least, the largest or any other. */
static void change_number(small_sheet *s)
{
    static const int header[][2] = {{0, 2}, {2, 2}, {4, 4}, {8, 4}, {12, 4}}, entry[][2] = {{0, 4}, {4, 2}, {6, 2}};
    static const uint64_t steps[] = {1, 6, 8, 256, 65536, UINT64_C(1) << 31};
    uint64_t i = below(COUNT(header) + COUNT(entry) * s->years), k = i - COUNT(header);
    const int *field = i < COUNT(header) ? header[i] : entry[k % COUNT(entry)];
    uint8_t *place = s->bytes + field[0] + (i < COUNT(header) ? 0 : HEADER + ENTRY * (k / COUNT(entry)));
    uint64_t step = steps[below(COUNT(steps))];
    switch (below(8)) {
    case 0: memset(place, 0, (size_t)field[1]); break;
    case 1: memset(place, 255, (size_t)field[1]); break;
    case 2: grow(place, field[1], any()); break;
    case 3: case 4: grow(place, field[1], 0 - step); break;
    default: grow(place, field[1], step);
    }
}

/* More bytes, a few less, any fewer, or about as many as a header has. */
static void change_length(small_sheet *s)
{
    switch (below(4)) {
    case 0: s->length += below(ROOM - s->length + 1); break;
    case 1: s->length -= below(s->length < 13 ? s->length + 1 : 13); break;
    case 2: s->length = below(s->length + 1); break;
    default: s->length = below(2 * HEADER);
    }
}

/* What fits the layout again if it did: a row goes over to the next year, the last row goes, another comes, other years. */
static void change_fittingly(small_sheet *s)
{
    uint8_t *rows = s->bytes + 4, *last = s->bytes + HEADER + ENTRY * (s->years - 1);
    switch (below(4)) {
    case 0:
        if (s->years == 1) return;
        grow(last - ENTRY + 4, 2, UINT64_MAX), grow(last + 4, 2, 1), grow(last, 4, UINT64_C(0) - ROW);
        return;
    case 1:
        if (s->length < ROW) return;
        grow(rows, 4, UINT64_MAX), grow(last + 4, 2, UINT64_MAX), s->length -= ROW;
        return;
    case 2:
        if (s->length + ROW > ROOM) return;
        grow(rows, 4, 1), grow(last + 4, 2, 1), s->length += ROW;
        return;
    default: put_number(s->bytes + 2, 1 + below(9999), 2);
    }
}

/* What the layout does not ask: a row's day, length or wing becomes one near it, a year's length one that years have. */
static void change_content(small_sheet *s)
{
    static const uint64_t steps[] = {1, 7, 354, 256, 65536}, lengths[] = {353, 354, 355, 383, 384, 385};
    uint8_t *rows = s->bytes + HEADER + ENTRY * s->years;
    uint8_t *row = rows + ROW * below((uint64_t)(s->bytes + ROOM - rows) / ROW);
    uint64_t step = steps[below(COUNT(steps))], days = lengths[below(COUNT(lengths))];
    switch (below(4)) {
    case 0: grow(row, 4, below(2) ? step : 0 - step); break;
    case 1: row[4] = (uint8_t)below(5); break;
    case 2: row[5] = (uint8_t)below(4); break;
    default: put_number(rows - ENTRY * (1 + below(s->years)) + 6, days, 2);
    }
}

static void change(small_sheet *s)
{
    uint8_t byte = (uint8_t)any();
    switch (below(10)) {
    case 0: case 1: s->bytes[below(HEADER + ENTRY * s->years)] = byte; break;
    case 2: case 3: change_number(s); break;
    case 4: change_length(s); break;
    case 5: s->bytes[below(ROOM)] = byte; break;
    case 6: case 7: change_content(s); break;
    default: change_fittingly(s);
    }
}

/* A year that the changed header tells of, or one beside these; now and then another number. */
static uint64_t any_year(const small_sheet *s)
{
    uint64_t year = number_at(s->bytes + 2, 2) + below(s->years + 2) - 1;
    switch (below(32)) {
    case 0: return any() * GUARD;
    case 1: return year + (UINT64_C(1) << 32);
    default: return year;
    }
}

/* The wing that the sheet was written for; now and then the other, or none. */
static uint64_t any_wing(const small_sheet *s)
{
    switch (below(16)) {
    case 0: return any() * GUARD;
    case 1: return s->wing + (UINT64_C(1) << 32);
    case 2: return below(4);
    case 3: return 3 - s->wing;
    default: return s->wing;
    }
}

/* How often each refusal came. */
static unsigned long answers[32];

/* Asks about a changed sheet: alone, beside a whole one, walking, and by any walker. */
static void ask(const small_sheet *s, uint64_t steps)
{
    const uint8_t *lent = before_edge(s->bytes, s->length);
    const small_sheet *other = any_small();
    uint64_t wing = any_wing(s), year = any_year(below(4) ? s : other), named = below(4);
    ++answers[same_rows(wing, lent, s->length, year)];
    ++answers[below(2) ? same_named_rows(named, lent, s->length, other->bytes, other->length, year)
                       : same_named_rows(named, other->bytes, other->length, lent, s->length, year)];
    same_walk(wing, lent, s->length, steps);
    bd_walker walker = {below(2) ? below(256) : any()};
    same_step(&walker, lent, s->length);
    same("a byte of the sheet has changed", memcmp(lent, s->bytes, s->length) != 0, 0);
}

/*
 * Holding them against the calendar takes the time. Among so many each refusal comes thousands of times, alone and beside a
 * whole sheet; where the tests are slow, fewer will do.
 */
#ifndef CHANGED_SHEETS
#define CHANGED_SHEETS 300000
#endif

/* Each refusal comes, and the group's name tells how often. */
static void by_chance(void)
{
    static const int refusals[] = {BD_DONE,            BD_BAD_YEAR,         BD_BAD_WING,         BD_SHEET_TOO_SHORT,
                                   BD_BAD_SHEET_YEARS, BD_BAD_SHEET_LAYOUT, BD_BAD_SHEET_CONTENT};
    static char group[200];
    int n = sprintf(group, "%d sheets changed by chance", CHANGED_SHEETS);
    begin(group);
    write_small();
    for (uint64_t number = 0; number < CHANGED_SHEETS; ++number) {
        small_sheet s = *any_small();
        for (uint64_t changes = 1 + below(3); changes > 0; --changes) change(&s);
        sheet_is("changed sheet", number);
        ask(&s, number % 16 == 0 ? ALL_STEPS : 3);
    }
    asking("how often each refusal came");
    for (size_t i = 0; i < COUNT(refusals); ++i) {
        same("a refusal that never came", answers[refusals[i]] == 0, 0);
        n += sprintf(group + n, "%s %d: %lu", i == 0 ? ", refusal" : ",", refusals[i], answers[refusals[i]]);
    }
    end();
}

void changed(void)
{
    begin("a year's sheet with each byte changed to each other");
    each_byte();
    end();
    by_chance();
}
