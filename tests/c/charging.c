/*
 * When charging must begin: rows of numbers, what is refused and in which order, and every day of the range in both wings
 * against a bank that is filled hour by hour, back from the stretch's start.
 */
#include "check.h"

#include "walk.h"

enum { FIRST = 347998, LAST = 4000075, MOST = 1000000 };

typedef struct {
    uint64_t draw, capacity, rate, charge;
} figures;

typedef struct {
    uint64_t wing, day;
    figures x;
    bd_charge_answer want;
} row;

/*
 * A Friday, 18 Tishri 5762; the eve of a New Year from Thursday to Saturday; a Saturday that is the last day of another
 * stretch in each wing, and the day after it; the first day of the range and the last Friday.
 */
static const row ROWS[] = {
    {1, 2452188, {24000, 30000, 1000, 4000}, {0, 58852516, 20, 2452189, 1}},
    {1, 2452188, {24001, 30000, 1000, 4000}, {0, 58852515, 21, 2452189, 1}},
    {1, 2452188, {24000, 30000, 1000, 0}, {0, 58852512, 24, 2452189, 1}},
    {1, 2452188, {24001, 30000, 1000, 0}, {14, 0, 0, 0, 0}},
    {1, 2452188, {24000, 30000, 1000, 24000}, {0, 58852536, 0, 2452189, 1}},
    {1, 2452188, {24000, 30000, 1000, 30000}, {0, 58852536, 0, 2452189, 1}},
    {1, 2452188, {30001, 30000, 1, 0}, {13, 0, 0, 0, 0}},
    {1, 2456925, {20000, 60000, 1000, 36000}, {0, 58966200, 24, 2456926, 3}},
    {1, 2456925, {20000, 59999, 1000, 36000}, {13, 0, 0, 0, 0}},
    {1, 2456925, {20000, 60000, 999, 36000}, {14, 0, 0, 0, 0}},
    {1, 2456942, {32000, 96000, 1000, 0}, {0, 58966696, 32, 2456947, 1}},
    {2, 2456942, {32000, 96000, 1000, 0}, {0, 58966632, 96, 2456947, 3}},
    {2, 2456942, {32001, 96003, 1000, 0}, {14, 0, 0, 0, 0}},
    {2, 2456943, {32000, 96000, 1000, 0}, {0, 58966632, 96, 2456947, 3}},
    {1, FIRST, {24000, 30000, 1000, 0}, {0, 8352048, 24, 348003, 1}},
    {2, LAST - 5, {24000, 30000, 1000, 0}, {0, 96001680, 24, 4000071, 1}},
    {2, LAST - 4, {24000, 30000, 1000, 0}, {9, 0, 0, 0, 0}},
    {1, LAST - 4, {30001, 30000, 1, 0}, {9, 0, 0, 0, 0}},
    {1, LAST - 4, {0, 30000, 1, 0}, {12, 0, 0, 0, 0}},
    {1, LAST + 1, {0, 30000, 1, 0}, {4, 0, 0, 0, 0}},
    {3, LAST + 1, {0, 30000, 1, 0}, {15, 0, 0, 0, 0}},
};

static bd_charge_answer ask(uint64_t wing, uint64_t day, figures x)
{
    asking("bd_charge_start(%" PRIu64 ", %" PRIu64 ", %" PRIu64 ", %" PRIu64 ", %" PRIu64 ", %" PRIu64 ")", wing, day,
           x.draw, x.capacity, x.rate, x.charge);
    return bd_charge_start(wing, day, x.draw, x.capacity, x.rate, x.charge);
}

static void told(uint64_t wing, uint64_t day, figures x, bd_charge_answer want)
{
    bd_charge_answer got = ask(wing, day, x);
    same("refusal", got.refusal, want.refusal), same("start", got.start, want.start), same("hours", got.hours, want.hours);
    same("first", got.first, want.first), same("length", got.length, want.length);
}

static void refused(uint64_t wing, uint64_t day, figures x, uint64_t refusal)
{
    const bd_charge_answer want = {refusal, 0, 0, 0, 0};
    told(wing, day, x, want);
}

/* Each figure at the ends of its range, and at numbers beyond them, one of which has a low half that is a good one. */
static void ends_of_figures(uint64_t wing, uint64_t day)
{
    static const uint64_t beyond[] = {0, MOST + 1, (UINT64_C(1) << 32) + 30000, UINT64_MAX};
    const figures least = {1, 1, 1, 0}, most = {MOST, MOST, MOST, MOST}, good = {24000, 30000, 1000, 4000};
    same("refusal of the least figures", ask(wing, day, least).refusal, BD_DONE);
    same("refusal of the largest figures", ask(wing, day, most).refusal, BD_DONE);
    for (size_t i = 0; i < COUNT(beyond); ++i) {
        figures draw = good, capacity = good, rate = good, charge = good;
        draw.draw = capacity.capacity = rate.rate = beyond[i];
        capacity.charge = 0; /* above no capacity */
        charge.charge = beyond[i] == 0 ? good.capacity + 1 : beyond[i];
        refused(wing, day, draw, BD_BAD_FIGURE), refused(wing, day, capacity, BD_BAD_FIGURE);
        refused(wing, day, rate, BD_BAD_FIGURE), refused(wing, day, charge, BD_BAD_FIGURE);
    }
}

/* A number from 0 to `most`, the same in every run. */
static uint64_t by_chance(uint64_t most)
{
    static uint64_t state = 3;
    state = state * UINT64_C(6364136223846793005) + UINT64_C(1442695040888963407);
    return (state >> 33) % (most + 1);
}

/* Charged from the stretch's start back, hour by hour, until the bank holds what is needed, or charging may begin no sooner. */
static bd_charge_answer filled(figures x, uint64_t from, uint64_t first, uint64_t length)
{
    bd_charge_answer want = {0, 24 * first, 0, first, length};
    const bd_charge_answer too_small = {BD_NEED_EXCEEDS_CAPACITY, 0, 0, 0, 0}, too_late = {BD_HOURS_DO_NOT_FIT, 0, 0, 0, 0};
    uint64_t need = 0;
    for (uint64_t day = 0; day < length; ++day) need += x.draw;
    if (need > x.capacity) return too_small;
    for (uint64_t held = x.charge; held < need; held += x.rate) {
        if (want.start == 24 * from) return too_late;
        --want.start, ++want.hours;
    }
    return want;
}

/* Figures by chance. The bank bears one day, and may be too small for two or three. */
static void any_figures(uint64_t wing, uint64_t day, uint64_t from, uint64_t first, uint64_t length, uint64_t count[15])
{
    figures x = {1 + by_chance(49999), 0, 1 + by_chance(1999), 0};
    x.capacity = x.draw + by_chance(3 * x.draw);
    x.charge = by_chance(x.capacity);
    bd_charge_answer want = filled(x, from, first, length);
    ++count[want.refusal];
    told(wing, day, x, want);
}

/* By the stretches that every_day found: a day's next is the first that begins after it. */
static void every_day_of(uint64_t wing)
{
    const figures good = {24000, 72000, 1000, 4000};
    uint64_t list[2 * MOST_DAYS], count[15] = {0}, first = 0, past = 0;
    for (uint64_t year = 1; year <= YEARS; ++year) {
        uint64_t n = find_stretches(wing, year, list);
        for (uint64_t i = 0; i < n; i += 2) {
            if (first != 0)
                for (uint64_t day = first; day < list[i]; ++day)
                    any_figures(wing, day, day < past ? past : day, list[i], list[i + 1], count);
            first = list[i], past = first + list[i + 1];
        }
    }
    same("the last stretch", first, LAST - 4);
    for (uint64_t day = first; day <= LAST; ++day) refused(wing, day, good, BD_NO_STRETCH);
    same("days with an answer", count[BD_DONE] > 1000000, 1);
    same("days on which the bank is too small", count[BD_NEED_EXCEEDS_CAPACITY] > 10000, 1);
    same("days on which the hours do not fit", count[BD_HOURS_DO_NOT_FIT] > 10000, 1);
    same("days in all", count[BD_DONE] + count[BD_NEED_EXCEEDS_CAPACITY] + count[BD_HOURS_DO_NOT_FIT], LAST - 4 - FIRST);
}

void charging(void)
{
    const figures good = {24000, 30000, 1000, 4000}, bad = {0, 0, 0, 1};
    begin("charging, and on every day of both wings");
    for (size_t i = 0; i < COUNT(ROWS); ++i) told(ROWS[i].wing, ROWS[i].day, ROWS[i].x, ROWS[i].want);
    for (uint64_t wing = 1; wing <= WINGS; ++wing) {
        ends_of_figures(wing, 2452188);
        for (size_t i = 0; i < COUNT(BAD_DAYS); ++i)
            refused(wing, BAD_DAYS[i], good, BD_DAY_OUT_OF_RANGE), refused(wing, BAD_DAYS[i], bad, BD_DAY_OUT_OF_RANGE);
        every_day_of(wing);
    }
    for (size_t i = 0; i < COUNT(BAD_WINGS); ++i)
        refused(BAD_WINGS[i], 2452188, good, BD_BAD_WING), refused(BAD_WINGS[i], 0, bad, BD_BAD_WING);
    end();
}
