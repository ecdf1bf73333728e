/*
 * Every day of the range against a walk of this file's own: three calendars turned over day by day, a weekday counted
 * round the seven, and each wing's runs of rest days as they come. The dates and stretches of a year are held against
 * those of the first year of its kind too; the fasts are noted as they come. A record of each wing is moved on from the first
 * day to the last, and from each day back to the one before.
 */
#include <string.h>

#include "check.h"

#include "walk.h"

enum { FIRST = 347998, LAST = 4000075 };

static unsigned char rests[WINGS + 1][LAST - FIRST + 2]; /* by the wing's number; the day after the last is none */

typedef struct {
    int64_t year;
    uint64_t month, day;
    int gregorian;
} civil;

static uint64_t civil_month(const civil *c)
{
    static const unsigned char days[] = {0, 31, 28, 31, 30, 31, 30, 31, 31, 30, 31, 30, 31};
    int leap = c->year % 4 == 0 && (!c->gregorian || c->year % 100 != 0 || c->year % 400 == 0);
    return days[c->month] + (c->month == 2 && leap ? 1U : 0U);
}

static void turn_civil(civil *c)
{
    if (++c->day <= civil_month(c)) return;
    c->day = 1;
    if (++c->month <= 12) return;
    c->month = 1;
    ++c->year;
}

typedef struct {
    uint64_t year, month, day, length;
} hebrew;

/* Days of the month, 0 for a month that the year has not. */
static uint64_t hebrew_month(const hebrew *h)
{
    static const unsigned char days[] = {0, 30, 29, 30, 29, 30, 30, 29, 30, 29, 30, 29, 30, 29};
    if (h->month == BD_MARHESHVAN && h->length % 10 == 5) return 30;
    if (h->month == BD_KISLEV && h->length % 10 == 3) return 29;
    if (h->month == BD_ADAR_I && !leap(h->year)) return 0;
    return days[h->month];
}

static void turn_hebrew(hebrew *h)
{
    ++h->day;
    while (h->day > hebrew_month(h)) {
        h->day = 1;
        if (++h->month <= 13) continue;
        h->month = 1;
        h->length = ++h->year <= YEARS ? year_length(h->year) : 0;
    }
}

/* Month code and day of each rest day, and the first wing that keeps it: wing 2 keeps those of wing 1 too. */
static const unsigned char TABLE[][3] = {
    {1, 1, 1},  {1, 2, 1},  {1, 10, 1}, {1, 15, 1}, {1, 16, 2}, {1, 22, 1}, {1, 23, 2},
    {8, 15, 1}, {8, 16, 2}, {8, 21, 1}, {8, 22, 2}, {10, 6, 1}, {10, 7, 2},
};

/* The first wing that keeps the date, or a number beyond the wings. */
static uint64_t kept_from(const hebrew *h)
{
    for (size_t i = 0; i < COUNT(TABLE); ++i)
        if (TABLE[i][0] == h->month && TABLE[i][1] == h->day) return TABLE[i][2];
    return WINGS + 1;
}

/* Asked without a buffer, a list tells how many entries it wants. */
static void wanted(bd_list_answer got, uint64_t entries)
{
    same("refusal without a buffer", got.refusal, BD_BUFFER_TOO_SHORT), same("entries wanted", got.count, entries);
}

/* Notes a wing's rest days of a year as they come, and holds the year's list against them on its last day. */
static void note(uint64_t wing, uint64_t day, const hebrew *h, int keeps)
{
    static uint64_t list[WINGS + 1][COUNT(TABLE)], count[WINGS + 1];
    uint64_t out[COUNT(TABLE)];
    if (keeps) list[wing][count[wing]++] = day;
    if (h->month != BD_ELUL || h->day != 29) return;
    asking("bd_rest_days(%" PRIu64 ", %" PRIu64 ", out, %zu)", wing, h->year, COUNT(out));
    bd_list_answer got = bd_rest_days(wing, h->year, out, COUNT(out));
    same("refusal", got.refusal, 0), same("count", got.count, count[wing]);
    for (size_t i = 0; i < count[wing]; ++i) same("entry", out[i], list[wing][i]);
    wanted(bd_rest_days(wing, h->year, NULL, 0), count[wing]);
    count[wing] = 0;
}

static void civil_day(uint64_t day, const civil *c)
{
    bd_civil_date date = c->gregorian ? bd_day_to_gregorian(day) : bd_day_to_julian(day);
    same("refusal of the civil date", date.refusal, 0), same_signed("civil year", date.year, c->year);
    same("civil month", date.month, c->month), same("civil day", date.day, c->day);
    bd_civil_day back = c->gregorian ? bd_gregorian_to_day(c->year, c->month, c->day)
                                     : bd_julian_to_day(c->year, c->month, c->day);
    same("refusal of the way back", back.refusal, 0), same("day of the civil date", back.day, day);
}

static void hebrew_day(uint64_t day, const hebrew *h)
{
    bd_hebrew_date date = bd_day_to_hebrew(day);
    same("refusal of the Hebrew date", date.refusal, 0), same("Hebrew year", date.year, h->year);
    same("Hebrew month", date.month, h->month), same("Hebrew day", date.day, h->day);
    same("new_year", date.new_year, new_year_of(h->year)), same("length", date.length, h->length);
    same("day_of_year", date.day_of_year, day - new_year_of(h->year) + 1);
    bd_hebrew_day back = bd_hebrew_to_day(h->year, h->month, h->day);
    same("refusal of the way back", back.refusal, 0), same("day of the Hebrew date", back.day, day);
    bd_month_answer month = bd_month_length(h->year, h->month);
    same("refusal of the month", month.refusal, 0), same("days of the month", month.days, hebrew_month(h));
    bd_year_of_day_answer year = bd_year_of_day(day);
    same("refusal of the year", year.refusal, 0), same("year of the day", year.year, h->year);
}

/* A date falls on the weekday that it has in the first year of the kind. */
static void date_of_kind(const hebrew *h, uint64_t weekday)
{
    static uint64_t falls[KINDS + 1][14][31]; /* by kind, month and day */
    uint64_t kind = kind_of(h->year), *first = &falls[kind][h->month][h->day];
    if (h->year == first_of_kind(kind)) *first = weekday;
    same("weekday of the date in a year of the kind", weekday, *first);
}

/* How many stretches a year has, by wing and kind. */
static const unsigned char STRETCHES[WINGS + 1][KINDS + 1] = {
    [BD_WING_1] = {0, 57, 56, 60, 59, 56, 59, 53, 54, 58, 60, 53, 55, 59, 58},
    [BD_GUEST_WING] = {0, 57, 55, 59, 59, 55, 59, 51, 52, 56, 58, 53, 55, 59, 57},
};

/* A year's list is that of the first year of the kind, with the days counted from New Year. */
static void list_of_kind(uint64_t wing, uint64_t year, const uint64_t *list, uint64_t n)
{
    static uint64_t firsts[WINGS + 1][KINDS + 1][BD_STRETCHES_ROOM];
    uint64_t kind = kind_of(year), *first = firsts[wing][kind];
    same("stretches of a year of the kind", n / 2, STRETCHES[wing][kind]);
    for (uint64_t i = 0; i < n; ++i) {
        uint64_t entry = i % 2 == 0 ? list[i] - new_year_of(year) : list[i];
        if (year == first_of_kind(kind)) first[i] = entry;
        same("entry of a year of the kind", entry, first[i]);
    }
}

/* A wing's record, moved on to a day, tells its date. */
static void record_date(uint64_t wing, uint64_t day, const hebrew *h)
{
    static bd_record records[WINGS + 1];
    bd_record *r = &records[wing];
    uint64_t refusal = day == FIRST ? bd_record_set(r, wing, day) : bd_record_next(r);
    same("refusal of the record", refusal, BD_DONE), same("day of the record", r->day, day);
    same("wing of the record", r->wing, wing), same("year of the record", r->year, h->year);
    same("month of the record", r->month, h->month), same("date of the record", r->date, h->day);
    same("days remaining", r->remaining, new_year_of(h->year) + h->length - 1 - day);
}

/* A record that stands on its day tells its fast and its stretch; it is moved on, and from there back to what it was. */
static void record_stretch(bd_record *r, uint64_t first, uint64_t length, int64_t days_left, uint64_t none)
{
    bd_record was = *r;
    record_fast(r);
    same("first of the record", r->first, first), same("length of the record", r->length, length);
    same_signed("days left of the record", r->days_left, days_left), same("flag of the record", r->none, none);
    same("refusal of the record", bd_record_next(r), was.day < LAST ? BD_DONE : BD_DAY_OUT_OF_RANGE);
    bd_record back = *r;
    if (was.day < LAST) same("refusal of the record moved back", bd_record_back(&back), BD_DONE);
    same("moved back, or refused, it differs", memcmp(&back, &was, sizeof back) != 0, 0);
}

uint64_t find_stretches(uint64_t wing, uint64_t year, uint64_t list[2 * MOST_DAYS])
{
    uint64_t n = 0;
    for (uint64_t day = new_year_of(year); day < new_year_of(year + 1); ++day) {
        if (!rests[wing][day - FIRST]) continue;
        if (n > 0 && list[n - 2] + list[n - 1] == day) {
            ++list[n - 1];
            continue;
        }
        list[n++] = day;
        list[n++] = 1;
    }
    return n;
}

/* A year's stretches in a wing, found in the days that rest, against its list. */
static uint64_t year_lists(uint64_t wing, uint64_t year)
{
    uint64_t out[BD_STRETCHES_ROOM], list[2 * MOST_DAYS], n = find_stretches(wing, year, list);
    asking("bd_stretches(%" PRIu64 ", %" PRIu64 ", out, %d)", wing, year, BD_STRETCHES_ROOM);
    same("entries beyond BD_STRETCHES_ROOM", n > BD_STRETCHES_ROOM ? n - BD_STRETCHES_ROOM : 0, 0);
    bd_list_answer got = bd_stretches(wing, year, out, BD_STRETCHES_ROOM);
    same("refusal", got.refusal, 0), same("count", got.count, n / 2);
    for (uint64_t i = 0; i < n; ++i) same("entry", out[i], list[i]);
    list_of_kind(wing, year, out, n);
    wanted(bd_stretches(wing, year, NULL, 0), n);
    return n;
}

/* `most` entries hold the stretches of any year in the wing, and no fewer do. */
static void stretches(uint64_t wing, uint64_t most)
{
    uint64_t first, day = FIRST, found = 0;
    bd_record record = {0};
    for (uint64_t year = 1; year <= YEARS; ++year) {
        uint64_t n = year_lists(wing, year);
        if (n > found) found = n;
    }
    asking("the stretches of any year in wing %" PRIu64, wing);
    same("the most entries", found, most);
    same("refusal of the record", bd_record_set(&record, wing, FIRST), BD_DONE);
    for (first = FIRST; first <= LAST; ++first) {
        uint64_t past = first;
        while (rests[wing][past - FIRST]) ++past;
        if (past == first) continue;
        for (; day < past; ++day) {
            bd_stretch_answer got = bd_stretch(wing, day);
            asking("bd_stretch(%" PRIu64 ", %" PRIu64 ")", wing, day);
            same("refusal", got.refusal, 0), same("first", got.first, first), same("length", got.length, past - first);
            same_signed("days_left", got.days_left, (int64_t)first - (int64_t)day);
            record_stretch(&record, first, past - first, (int64_t)first - (int64_t)day, 0);
        }
        first = past;
    }
    for (; day <= LAST; ++day) {
        asking("bd_stretch(%" PRIu64 ", %" PRIu64 ")", wing, day);
        same("refusal", bd_stretch(wing, day).refusal, BD_NO_STRETCH);
        record_stretch(&record, 0, 0, 0, 1);
    }
}

void every_day(void)
{
    civil julian = {-3760, 10, 7, 0}, gregorian = {-3760, 9, 7, 1};
    hebrew h = {1, 1, 1, year_length(1)};
    uint64_t weekday = BD_MONDAY;
    begin("every day in three calendars, every fast, and every rest day, stretch and record of both wings");
    for (uint64_t day = FIRST; day <= LAST; ++day) {
        asking("day %" PRIu64, day);
        same("weekday", bd_weekday(day).weekday, weekday);
        civil_day(day, &julian), civil_day(day, &gregorian);
        hebrew_day(day, &h);
        date_of_kind(&h, weekday);
        note_fast(day, h.year, h.month, h.day, weekday);
        uint64_t from = kept_from(&h);
        for (uint64_t wing = 1; wing <= WINGS; ++wing) {
            rests[wing][day - FIRST] = weekday == BD_SATURDAY || from <= wing;
            note(wing, day, &h, from <= wing);
            record_date(wing, day, &h);
        }
        weekday = weekday == 7 ? 1 : weekday + 1;
        turn_civil(&julian), turn_civil(&gregorian), turn_hebrew(&h);
    }
    asking("the day after the last");
    same("Hebrew year", h.year, YEARS + 1);
    asking("the rest days of a year in the wing that keeps most");
    same("BD_REST_DAYS_ROOM", BD_REST_DAYS_ROOM, COUNT(TABLE));
    find_fasts();
    stretches(BD_WING_1, BD_STRETCHES_ROOM);
    stretches(BD_GUEST_WING, 118);
    end();
}
