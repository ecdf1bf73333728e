/*
 * The panel's day record: rows of known days; whole years of each kind, walked on and back, with each day against a record
 * that is set afresh and against the calls that own its numbers; and what is refused, which alters nothing.
 */
#include <string.h>

#include "check.h"

#include "walk.h"

static const bd_record NEW;

/* The numbers of a record in their order. */
static const bd_record ROWS[] = {
    {2456925, 1, 5774, 13, 29, 2456926, 3, 1, 0, 0, 1, 4, 0},   {2456926, 1, 5775, 1, 1, 2456926, 3, 0, 0, 353, 1, 3, 0},
    {2456928, 1, 5775, 1, 3, 2456926, 3, -2, 0, 351, 1, 1, 0},  {2456929, 1, 5775, 1, 4, 2456935, 1, 6, 0, 350, 1, 0, 0},
    {2456930, 1, 5775, 1, 5, 2456935, 1, 5, 0, 349, 4, 94, 0},  {2452186, 1, 5762, 1, 16, 2452189, 1, 3, 0, 338, 4, 83, 0},
    {2452186, 2, 5762, 1, 16, 2452185, 2, -1, 0, 338, 4, 83, 0}, {347998, 1, 1, 1, 1, 347998, 2, 0, 0, 354, 1, 2, 0},
    {347998, 2, 1, 1, 1, 347998, 2, 0, 0, 354, 1, 2, 0},        {4000025, 1, 9999, 12, 9, 4000029, 1, 4, 0, 50, 12, 0, 0},
    {4000026, 1, 9999, 12, 10, 4000029, 1, 3, 0, 49, 0, 0, 1},  {4000066, 1, 9999, 13, 20, 4000071, 1, 5, 0, 9, 0, 0, 1},
    {4000070, 2, 9999, 13, 24, 4000071, 1, 1, 0, 5, 0, 0, 1},   {4000071, 1, 9999, 13, 25, 4000071, 1, 0, 0, 4, 0, 0, 1},
    {4000072, 1, 9999, 13, 26, 0, 0, 0, 1, 3, 0, 0, 1},         {4000073, 2, 9999, 13, 27, 0, 0, 0, 1, 2, 0, 0, 1},
    {4000074, 1, 9999, 13, 28, 0, 0, 0, 1, 1, 0, 0, 1},         {4000075, 2, 9999, 13, 29, 0, 0, 0, 1, 0, 0, 0, 1},
};

static void same_record(const bd_record *got, const bd_record *want)
{
    same("day", got->day, want->day), same("wing", got->wing, want->wing), same("year", got->year, want->year);
    same("month", got->month, want->month), same("date", got->date, want->date), same("first", got->first, want->first);
    same("length", got->length, want->length), same_signed("days_left", got->days_left, want->days_left);
    same("none", got->none, want->none), same("remaining", got->remaining, want->remaining);
    same("fast_month", got->fast_month, want->fast_month), same("fast_left", got->fast_left, want->fast_left);
    same("no_fast", got->no_fast, want->no_fast);
}

/* A record of these numbers, and what it must be after a call. */
static void set(bd_record from, uint64_t wing, uint64_t day, uint64_t refusal, const bd_record *want)
{
    asking("bd_record_set(record of day %" PRIu64 ", %" PRIu64 ", %" PRIu64 ")", from.day, wing, day);
    same("refusal", bd_record_set(&from, wing, day), refusal);
    same_record(&from, want);
}

typedef struct {
    const char *name;
    uint64_t (*call)(bd_record *record);
} move;

static const move NEXT = {"bd_record_next", bd_record_next}, BACK = {"bd_record_back", bd_record_back};

static void moved(const move *m, bd_record from, uint64_t refusal, const bd_record *want)
{
    asking("%s(record of day %" PRIu64 ", wing %" PRIu64 ")", m->name, from.day, from.wing);
    same("refusal", m->call(&from), refusal);
    same_record(&from, want);
}

static void rows(void)
{
    for (size_t i = 0; i < COUNT(ROWS); ++i) {
        set(NEW, ROWS[i].wing, ROWS[i].day, BD_DONE, &ROWS[i]);
        set(ROWS[0], ROWS[i].wing, ROWS[i].day, BD_DONE, &ROWS[i]);
        for (size_t k = 0; k < COUNT(ROWS); ++k) {
            if (ROWS[k].wing != ROWS[i].wing || ROWS[k].day != ROWS[i].day + 1) continue;
            moved(&NEXT, ROWS[i], BD_DONE, &ROWS[k]);
            moved(&BACK, ROWS[k], BD_DONE, &ROWS[i]);
        }
    }
}

/* The next fast, on the day or later, out of the lists of the day's year and of the next. */
static void gather_fast(bd_record *all, uint64_t year)
{
    uint64_t days[2 * BD_FASTS_ROOM] = {0};
    uint64_t n = bd_fasts(year, days, BD_FASTS_ROOM).count;
    if (year < YEARS) n += bd_fasts(year + 1, days + n, BD_FASTS_ROOM).count;
    for (uint64_t i = 0; i < n; ++i) {
        if (days[i] < all->day) continue;
        all->fast_month = bd_day_to_hebrew(days[i]).month;
        all->fast_left = days[i] - all->day;
        return;
    }
    all->no_fast = 1;
}

/* What the calls that own its numbers tell of a day, in one record. */
static bd_record gathered(uint64_t wing, uint64_t day)
{
    bd_hebrew_date date = bd_day_to_hebrew(day);
    bd_stretch_answer stretch = bd_stretch(wing, day);
    bd_record all = {day, wing, date.year, date.month, date.day, stretch.first, stretch.length, stretch.days_left,
                     0,   0,    0,         0,          0};
    all.none = stretch.refusal == BD_NO_STRETCH;
    all.remaining = date.new_year + date.length - 1 - day;
    gather_fast(&all, date.year);
    return all;
}

/* From a day to another, moved on and then moved back to the first, in a wing. */
static void walked(uint64_t wing, uint64_t from, uint64_t to)
{
    bd_record record = NEW, fresh = NEW, all;
    asking("a record of wing %" PRIu64 " set to day %" PRIu64, wing, from);
    same("refusal", bd_record_set(&record, wing, from), BD_DONE);
    for (uint64_t day = from; day <= to; ++day) {
        asking("a record of wing %" PRIu64 " moved on to day %" PRIu64, wing, day);
        if (day > from) same("refusal of the move", bd_record_next(&record), BD_DONE);
        all = gathered(wing, day);
        same_record(&record, &all);
        same("refusal", bd_record_set(&fresh, wing, day), BD_DONE);
        same_record(&record, &fresh);
    }
    for (uint64_t day = to; day-- > from;) {
        asking("a record of wing %" PRIu64 " moved back to day %" PRIu64, wing, day);
        same("refusal of the move", bd_record_back(&record), BD_DONE);
        same("refusal", bd_record_set(&fresh, wing, day), BD_DONE);
        same_record(&record, &fresh);
    }
}

/* The first year of each kind, with the days before it and after it; the first days of the range and the last, from before
   the last fast on. */
static void years(uint64_t wing)
{
    for (uint64_t kind = 1; kind <= KINDS; ++kind) {
        uint64_t year = first_of_kind(kind);
        uint64_t from = new_year_of(year), to = new_year_of(year + 1) + 9;
        walked(wing, year > 1 ? from - 10 : from, to);
    }
    walked(wing, BD_FIRST_DAY, BD_FIRST_DAY + 9);
    walked(wing, BD_LAST_DAY - FASTLESS - 9, BD_LAST_DAY);
}

/* Nothing is altered, whatever else the record holds. */
static void refused(bd_record from)
{
    for (size_t i = 0; i < COUNT(BAD_WINGS); ++i) {
        set(from, BAD_WINGS[i], 2456928, BD_BAD_WING, &from);
        for (size_t k = 0; k < COUNT(BAD_DAYS); ++k) set(from, BAD_WINGS[i], BAD_DAYS[k], BD_BAD_WING, &from);
    }
    for (uint64_t wing = 1; wing <= WINGS; ++wing)
        for (size_t i = 0; i < COUNT(BAD_DAYS); ++i) set(from, wing, BAD_DAYS[i], BD_DAY_OUT_OF_RANGE, &from);
    for (size_t i = 0; i < COUNT(BAD_DAYS); ++i) {
        from.day = BAD_DAYS[i];
        moved(&NEXT, from, BD_DAY_OUT_OF_RANGE, &from), moved(&BACK, from, BD_DAY_OUT_OF_RANGE, &from);
    }
    from.day = BD_LAST_DAY;
    moved(&NEXT, from, BD_DAY_OUT_OF_RANGE, &from);
    from.day = BD_FIRST_DAY;
    moved(&BACK, from, BD_DAY_OUT_OF_RANGE, &from);
    from.day = 2456928;
    for (size_t i = 0; i < COUNT(BAD_WINGS); ++i) {
        from.wing = BAD_WINGS[i];
        moved(&NEXT, from, BD_BAD_WING, &from), moved(&BACK, from, BD_BAD_WING, &from);
    }
}

/* Day and wing are good, and the rest may be anything: the calls end, and day and wing are moved. */
static void spoilt(const bd_record *from)
{
    bd_record on = *from, back = *from;
    asking("a spoilt record of day %" PRIu64 ", wing %" PRIu64, from->day, from->wing);
    same("refusal", bd_record_next(&on), BD_DONE), same("refusal of the way back", bd_record_back(&back), BD_DONE);
    same("day", on.day, from->day + 1), same("day before", back.day, from->day - 1);
    same("wing", on.wing, from->wing), same("wing of the way back", back.wing, from->wing);
}

/* One field after another spoilt by each number, and all of them; zeros besides day and wing are worked out. */
static void spoilt_by(uint64_t wing, uint64_t number)
{
    const bd_record good = gathered(wing, 2456928), after = gathered(wing, 2456929), before = gathered(wing, 2456927);
    bd_record all = good, zeros = {2456928, wing, 0, 0, 0, 0, 0, 0, 0, 0, 0, 0, 0}, back = zeros;
    for (size_t i = 2 * sizeof number; i < sizeof all; i += sizeof number) {
        bd_record one = good;
        memcpy((char *)&one + i, &number, sizeof number), spoilt(&one);
        memcpy((char *)&all + i, &number, sizeof number), spoilt(&all);
        for (size_t k = 2 * sizeof number; k < i; k += sizeof number) {
            bd_record two = one;
            memcpy((char *)&two + k, &number, sizeof number), spoilt(&two);
        }
    }
    same("refusal", bd_record_next(&zeros), BD_DONE), same("refusal of the way back", bd_record_back(&back), BD_DONE);
    same_record(&zeros, &after), same_record(&back, &before);
}

void records(void)
{
    static const uint64_t NUMBERS[] = {0,   1,       2,       28,          29,             30,
                                       400, 2456927, 2456929, BD_LAST_DAY, UINT64_MAX - 1, UINT64_MAX};
    bd_record guarded;
    begin("the panel's day record");
    rows();
    for (uint64_t wing = 1; wing <= WINGS; ++wing) {
        years(wing);
        for (size_t i = 0; i < COUNT(NUMBERS); ++i) spoilt_by(wing, NUMBERS[i]);
    }
    for (size_t i = 0; i < sizeof guarded / sizeof(uint64_t); ++i) {
        const uint64_t guard = GUARD + i;
        memcpy((char *)&guarded + i * sizeof guard, &guard, sizeof guard);
    }
    refused(NEW), refused(ROWS[2]), refused(guarded);
    end();
}
