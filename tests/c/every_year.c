/*
 * Every New Year, by both routes, against a count of this file's own: months one by one, then the four delays and why.
 * A year's kind is the place of its weekday and length among those that are found.
 */
#include "check.h"

#include "walk.h"

static const uint64_t DAY = 25920, HOUR = 1080, MONTH = 765433;

int leap(uint64_t year)
{
    switch (year % 19) {
    case 0: case 3: case 6: case 8: case 11: case 14: case 17: return 1;
    default: return 0;
    }
}

static uint64_t weekday(uint64_t day) { return (day + 1) % 7 + 1; }

typedef struct {
    uint64_t days, cause;
} delay;

static delay delayed(uint64_t year, uint64_t day, uint64_t time)
{
    uint64_t noon = 18 * HOUR;
    uint64_t w = weekday(day);
    if (!leap(year) && w == 3 && time >= 9 * HOUR + 204 && time < noon) return (delay){2, BD_CAUSE_TUESDAY};
    if (leap(year + 18) && w == 2 && time >= 15 * HOUR + 589 && time < noon) return (delay){1, BD_CAUSE_MONDAY};
    w = weekday(time >= noon ? day + 1 : day);
    if (w == 1 || w == 4 || w == 6)
        return time >= noon ? (delay){2, BD_CAUSE_NOON_THEN_WEEKDAY} : (delay){1, BD_CAUSE_WEEKDAY};
    return time >= noon ? (delay){1, BD_CAUSE_NOON} : (delay){0, BD_CAUSE_NONE};
}

static uint64_t months_of[YEARS + 2], begins[YEARS + 2];
static delay delay_of[YEARS + 2];

uint64_t new_year_of(uint64_t year) { return begins[year]; }
uint64_t year_length(uint64_t year) { return begins[year + 1] - begins[year]; }

/* The kind's number, at 1,000 x weekday of New Year + length; 0 where no year has them. */
static uint64_t kind_at[8000];

static uint64_t *kind_place(uint64_t year) { return &kind_at[1000 * weekday(begins[year]) + year_length(year)]; }

uint64_t kind_of(uint64_t year) { return *kind_place(year); }

static void number_kinds(void)
{
    uint64_t kinds = 0;
    for (uint64_t year = 1; year <= YEARS; ++year) *kind_place(year) = 1;
    for (size_t i = 0; i < COUNT(kind_at); ++i)
        if (kind_at[i] != 0) kind_at[i] = ++kinds;
    asking("the kinds of year");
    same("count", kinds, KINDS);
}

static void one_year(uint64_t year, uint64_t parts)
{
    for (int route = 0; route < 2; ++route) {
        bd_new_year_answer got = route == 0 ? bd_new_year(year) : bd_new_year_rhodes(year);
        asking("%s(%" PRIu64 ")", route == 0 ? "bd_new_year" : "bd_new_year_rhodes", year);
        same("refusal", got.refusal, 0);
        same("day", got.day, begins[year]), same("weekday", got.weekday, weekday(begins[year]));
        same("molad_day", got.molad_day, 347998 + parts / DAY);
        same("molad_hour", got.molad_hour, parts % DAY / HOUR), same("molad_part", got.molad_part, parts % HOUR);
        same("delay", got.delay, delay_of[year].days), same("cause", got.cause, delay_of[year].cause);
    }
}

static void one_month(uint64_t year, uint64_t code, uint64_t parts)
{
    uint64_t day = 347998 + parts / DAY, hour = parts % DAY / HOUR, part = parts % HOUR;
    bd_molad_answer molad = bd_molad(year, code);
    asking("bd_molad(%" PRIu64 ", %" PRIu64 ")", year, code);
    same("refusal", molad.refusal, 0), same("day", molad.day, day);
    same("hour", molad.hour, hour), same("part", molad.part, part);

    /* the same instant, in parts from the midnight of day 0: six hours less than from 18:00 the evening before */
    uint64_t civil = 347998 * DAY + parts - 6 * HOUR, shown = civil / DAY;
    bd_notice_answer notice = bd_notice(year, code);
    asking("bd_notice(%" PRIu64 ", %" PRIu64 ")", year, code);
    same("refusal", notice.refusal, 0), same("day", notice.day, shown), same("weekday", notice.weekday, weekday(shown));
    same("hour", notice.hour, civil % DAY / HOUR), same("minute", notice.minute, civil % HOUR / 18);
    same("part", notice.part, civil % 18);
    same("day in range", bd_weekday(notice.day).refusal == 0, !(year == 1 && code == BD_TISHRI));
}

static void length_and_kind(uint64_t year)
{
    bd_year_answer got = bd_year(year);
    asking("bd_year(%" PRIu64 ")", year);
    same("refusal", got.refusal, 0);
    same("new_year", got.new_year, begins[year]), same("weekday", got.weekday, weekday(begins[year]));
    same("length", got.length, year_length(year)), same("months", got.months, months_of[year]);
    same("delay", got.delay, delay_of[year].days), same("cause", got.cause, delay_of[year].cause);

    bd_kind_answer kind = bd_kind(year);
    asking("bd_kind(%" PRIu64 ")", year);
    same("refusal", kind.refusal, 0), same("kind", kind.kind, kind_of(year));
    same("weekday", kind.weekday, weekday(begins[year])), same("length", kind.length, year_length(year));
}

typedef struct {
    uint64_t years, first;
} tally;

/* How many of the years 1 to 10,000 have each cause, and the first of them; the last row is for any other number. */
static const tally BY_CAUSE[] = {{3897, 1}, {1428, 4}, {3214, 2}, {1073, 3}, {332, 7}, {56, 75}, {0, 0}};

/* The same of the years 1 to 9999 and the kinds, which begin at 1. */
static const tally BY_KIND[KINDS + 2] = {
    {0, 0},
    {571, 15},  {1178, 1}, {580, 8},  {472, 14},
    {627, 4},   {524, 27},
    {1804, 7},  {330, 23}, {388, 3},  {666, 6},
    {433, 26},  {1373, 2}, {579, 19}, {474, 25},
    {0, 0},
};

uint64_t first_of_kind(uint64_t kind) { return BY_KIND[kind].first; }

static uint64_t cause_told(uint64_t year) { return bd_new_year(year).cause; }
static uint64_t kind_told(uint64_t year) { return bd_kind(year).kind; }

static void tallied(const char *name, uint64_t (*told)(uint64_t year), uint64_t last, const tally *want, size_t count)
{
    tally found[KINDS + 2] = {{0, 0}};
    for (uint64_t year = 1; year <= last; ++year) {
        uint64_t number = told(year);
        tally *row = &found[number < count ? number : count - 1];
        if (row->years++ == 0) row->first = year;
    }
    for (size_t i = 0; i < count; ++i) {
        asking("%s %zu", name, i);
        same("years", found[i].years, want[i].years), same("first year", found[i].first, want[i].first);
    }
}

void every_year(void)
{
    uint64_t parts = 5 * HOUR + 204;
    begin("every New Year by both routes, every molad and its notice, every year's kind");
    for (uint64_t year = 1; year <= YEARS + 1; ++year) {
        delay_of[year] = delayed(year, 347998 + parts / DAY, parts % DAY);
        begins[year] = 347998 + parts / DAY + delay_of[year].days;
        one_year(year, parts);
        months_of[year] = leap(year) ? 13 : 12;
        for (uint64_t code = 1; code <= 13; ++code) {
            if (code == BD_ADAR_I && !leap(year)) continue;
            if (year <= YEARS) one_month(year, code, parts);
            parts += MONTH;
        }
    }
    number_kinds();
    for (uint64_t year = 1; year <= YEARS; ++year) length_and_kind(year);
    tallied("cause", cause_told, YEARS + 1, BY_CAUSE, COUNT(BY_CAUSE));
    tallied("kind", kind_told, YEARS, BY_KIND, COUNT(BY_KIND));
    end();
}
