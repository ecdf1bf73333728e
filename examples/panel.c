/*
 * A battery room's panel, to start from: for a wing, a civil date, a time and the hall's sunset it shows the Hebrew
 * day, whether the bank carries the load, the days left to the first day of the wing's stretch of rest days, and for
 * the kitchens the next fast; and for what the hall draws in a day, what the bank can hold, what the charger gives in an
 * hour and what the bank holds, in watt-hours, when charging must begin. Then keys may be pressed: + and - show the days
 * after and before it.
 *
 *     panel 1 2014-09-24 20:00 18:52
 *     panel 1 2014-09-24 20:00 18:52 +++-
 *     panel 1 2014-09-28 20:00 18:52 + 20000 60000 1000 12000
 *     panel 2 today
 *
 * The panel keeps one record of a day. It is set once, and moved by a day at sunset and at each key.
 *
 * A Hebrew day begins in the evening. The library knows no sunset, so the panel sees to it: before the hall's sunset it
 * shows the civil day, and from sunset on the day after. So with the hours of charging: the library counts them from
 * 18:00, and the panel from the hall's sunset, at which the bank takes the load.
 *
 * The days left have a sign, and they decide: on the second and third day of a stretch they are -1 and -2, and the bank
 * stays on the load. Where the record says that no stretch is left the bank is off the load. After a refusal nothing is
 * known, and nothing is shown but why. A key shows another day, and so nothing of the bank as it is now. A fast says
 * nothing of the bank.
 */
#include <inttypes.h>
#include <stdbool.h>
#include <stdint.h>
#include <stdio.h>
#include <string.h>
#include <time.h>

#include <bournedrouth.h>
#include <bournedrouth_names.h>

/* Times of a day are in minutes after midnight. */
enum { HOUR = 60, NOON = 12 * HOUR, USUAL_SUNSET = 18 * HOUR, DAY = 24 * HOUR };

typedef struct {
    int64_t year;
    uint64_t month, date, time, sunset;
} moment;

/* In watt-hours: what the hall draws in a day, the bank can hold, the charger gives in an hour, and the bank holds. */
typedef struct {
    bool asked;
    uint64_t draw, capacity, rate, charge;
} charging;

/* Reads `least` to `most` figures and leaves *text behind them. */
static bool figures(const char **text, int least, int most, uint64_t *number)
{
    int n = 0;
    *number = 0;
    while (n < most && **text >= '0' && **text <= '9') {
        *number = 10 * *number + (uint64_t)(**text - '0');
        ++*text;
        ++n;
    }
    return n >= least;
}

static bool mark(const char **text, char c)
{
    if (**text != c) return false;
    ++*text;
    return true;
}

/* A number of one to nineteen figures, which 64 bits hold; whether it is a good one is the library's to say. */
static bool read_number(const char *text, uint64_t *number) { return figures(&text, 1, 19, number) && *text == '\0'; }

/* YYYY-MM-DD: a year of one to nine figures, with a minus sign where it is below zero; two figures for each other. */
static bool read_date(const char *text, moment *m)
{
    bool below_zero = mark(&text, '-');
    uint64_t size;
    if (!figures(&text, 1, 9, &size) || !mark(&text, '-')) return false;
    if (!figures(&text, 2, 2, &m->month) || !mark(&text, '-')) return false;
    if (!figures(&text, 2, 2, &m->date) || *text != '\0') return false;
    m->year = below_zero ? -(int64_t)size : (int64_t)size;
    return true;
}

/* HH:MM, from 00:00 to 23:59. */
static bool read_time(const char *text, uint64_t *time)
{
    uint64_t hour, minute;
    if (!figures(&text, 2, 2, &hour) || !mark(&text, ':')) return false;
    if (!figures(&text, 2, 2, &minute) || *text != '\0') return false;
    *time = HOUR * hour + minute;
    return hour < 24 && minute < 60;
}

/* The clock's date and time, where the machine stands. */
static bool read_clock(moment *m)
{
    time_t seconds = time(NULL);
    const struct tm *now = localtime(&seconds);
    if (now == NULL) return false;
    m->year = (int64_t)now->tm_year + 1900;
    m->month = (uint64_t)now->tm_mon + 1;
    m->date = (uint64_t)now->tm_mday;
    m->time = (uint64_t)(HOUR * now->tm_hour + now->tm_min);
    return true;
}

/*
 * A date alone is its noon, and today alone is now; an empty word is as none. A sunset lies after noon: 06:30 for 18:30
 * would have the bank off the load through the last day of every stretch.
 */
static bool read_moment(const char *date, const char *at, const char *sunset, moment *m)
{
    m->time = NOON;
    m->sunset = USUAL_SUNSET;
    if (strcmp(date, "today") == 0 ? !read_clock(m) : !read_date(date, m)) return false;
    if (*at != '\0' && !read_time(at, &m->time)) return false;
    return *sunset == '\0' || (read_time(sunset, &m->sunset) && m->sunset > NOON);
}

/* All four or none. */
static bool read_charging(int words, char *const *word, charging *c)
{
    c->asked = words > 0;
    if (!c->asked) return true;
    return words == 4 && read_number(word[0], &c->draw) && read_number(word[1], &c->capacity) &&
           read_number(word[2], &c->rate) && read_number(word[3], &c->charge);
}

static bool since_sunset(const moment *m) { return m->time >= m->sunset; }

static void show_clock(uint64_t time) { printf("%02" PRIu64 ":%02" PRIu64, time / HOUR, time % HOUR); }

static void show_civil(uint64_t day)
{
    bd_civil_date date = bd_day_to_gregorian(day);
    printf("%" PRId64 "-%02" PRIu64 "-%02" PRIu64 " %s", date.year, date.month, date.day,
           bd_weekday_name(bd_weekday(day).weekday));
}

/* A month's name. Adar's alone wants the length of its year, the record's. */
static const char *month_name(const bd_record *record, uint64_t month)
{
    return bd_month_name(month, month == BD_ADAR ? bd_year(record->year).length : 0);
}

/* The Hebrew day that the record stands on. */
static void show_day(const bd_record *record)
{
    printf("%s, %" PRIu64 " %s %" PRIu64, bd_weekday_name(bd_weekday(record->day).weekday), record->date,
           month_name(record, record->month), record->year);
}

static void show_days_left(const bd_record *record)
{
    printf("days left ");
    if (record->none)
        printf("--");
    else
        printf("%" PRId64, record->days_left);
}

/* The next fast, for the kitchens. Adar's comes in the record's own year: Tevet's is before it. */
static void show_fast(const bd_record *record)
{
    if (record->no_fast) {
        printf("no fast left");
        return;
    }
    printf("fast of %s ", month_name(record, record->fast_month));
    if (record->fast_left == 0)
        printf("on this day, ");
    else
        printf("in %" PRIu64 " day%s, on ", record->fast_left, record->fast_left == 1 ? "" : "s");
    printf("%s", bd_weekday_name(bd_weekday(record->day + record->fast_left).weekday));
}

/* Shows the wing, a moment of a civil day, the Hebrew day that it lies in, the bank, and the next fast. */
static void show_now(const moment *m, uint64_t civil, const bd_record *record)
{
    printf("wing %" PRIu64 ", ", record->wing);
    show_civil(civil);
    printf(" ");
    show_clock(m->time);
    printf(", %s sunset (", since_sunset(m) ? "since" : "before");
    show_clock(m->sunset);
    printf(")\n");
    show_day(record);
    printf("\nbank %s the load\n", !record->none && record->days_left <= 0 ? "ON" : "off");
    show_days_left(record);
    printf("\n");
    show_fast(record);
    printf("\n");
}

static int refused_for(uint64_t wing, const char *date, const char *when, uint64_t refusal, const char *why)
{
    fflush(stdout); /* what was shown comes before it */
    fprintf(stderr, "panel: wing %" PRIu64 ", %s%s: %s (refusal %" PRIu64 ")\n", wing, date, when, why, refusal);
    return 1;
}

static int refused(uint64_t wing, const char *date, const char *when, uint64_t refusal)
{
    return refused_for(wing, date, when, refusal, bd_refusal_name(refusal));
}

/* Shows a minute that is counted on from day to day, as the civil day's number and the time of that day make it. */
static void show_minute(uint64_t minute)
{
    show_civil(minute / DAY);
    printf(" ");
    show_clock(minute % DAY);
}

/*
 * Shows when charging must begin. Day J begins with hour 24 x J, at the sunset of civil day J - 1. Whether the charger is
 * running the panel does not know: of an hour that is past it says that charging must have begun by then.
 */
static int show_charging(const charging *c, const char *date, const moment *m, uint64_t civil, const bd_record *record)
{
    bd_charge_answer told = bd_charge_start(record->wing, record->day, c->draw, c->capacity, c->rate, c->charge);
    if (told.refusal != BD_DONE)
        return refused_for(record->wing, date, ", charging", told.refusal, bd_charge_refusal_name(told.refusal));
    uint64_t start = (told.start / 24 - 1) * DAY + m->sunset + told.start % 24 * HOUR;
    if (told.hours == 0) {
        printf("no charging needed");
    } else {
        printf("charging must %s by ", start < civil * DAY + m->time ? "have begun" : "begin");
        show_minute(start);
        printf(" and takes %" PRIu64 " hour%s,", told.hours, told.hours == 1 ? "" : "s");
    }
    printf(" for %" PRIu64 " rest day%s from ", told.length, told.length == 1 ? "" : "s");
    show_minute((told.first - 1) * DAY + m->sunset);
    printf("\n");
    return 0;
}

/* Moves the record by each key, + or -, and shows the day that it then stands on. */
static int press(const char *keys, const char *date, bd_record *record)
{
    for (; *keys != '\0'; ++keys) {
        uint64_t refusal = *keys == '+' ? bd_record_next(record) : bd_record_back(record);
        if (refusal != BD_DONE) return refused(record->wing, date, *keys == '+' ? " at key +" : " at key -", refusal);
        printf("%c ", *keys);
        show_day(record);
        printf(", ");
        show_days_left(record);
        printf(", days remaining %" PRIu64 ", ", record->remaining);
        show_fast(record);
        printf("\n");
    }
    return 0;
}

/* A bad wing is told before a bad date: the day of a refused date is 0, and bd_record_set looks at the wing first. */
static int show(uint64_t wing, const char *date, const moment *m, const charging *c, const char *keys)
{
    bd_record record = {0};
    bd_civil_day civil = bd_gregorian_to_day(m->year, m->month, m->date);
    uint64_t refusal = bd_record_set(&record, wing, civil.day);
    if (refusal == BD_BAD_WING) return refused(wing, date, "", refusal);
    if (civil.refusal != BD_DONE) return refused(wing, date, "", civil.refusal);
    if (refusal == BD_DONE && since_sunset(m)) refusal = bd_record_next(&record);
    if (refusal != BD_DONE) return refused(wing, date, since_sunset(m) ? " since sunset" : "", refusal);
    show_now(m, civil.day, &record);
    int status = c->asked ? show_charging(c, date, m, civil.day, &record) : 0;
    return press(keys, date, &record) != 0 ? 1 : status;
}

int main(int argc, char **argv)
{
    uint64_t wing;
    moment m;
    charging c;
    const int more = argc > 6 ? argc - 6 : 0;
    const char *at = argc > 3 ? argv[3] : "", *sunset = argc > 4 ? argv[4] : "", *keys = argc > 5 ? argv[5] : "";
    if (argc < 3 || !read_number(argv[1], &wing) || !read_moment(argv[2], at, sunset, &m) ||
        keys[strspn(keys, "+-")] != '\0' || !read_charging(more, argv + argc - more, &c)) {
        /* the figures are told of where more than one word stands in their place */
        fprintf(stderr, "usage: panel WING DATE [TIME [SUNSET [KEYS%s]]]\n"
                        "WING is 1 or, for the guest wing, 2;\n"
                        "DATE is a Gregorian date, as 2014-09-27 or -3760-09-07, or the word today;\n"
                        "TIME and SUNSET are hours and minutes, as 18:52, and the sunset is after noon;\n"
                        "without TIME it is noon, and for today the time that it is now;\n"
                        "without SUNSET it is 18:00, the calendar's hour and not your hall's sunset;\n"
                        "KEYS are + and -, each of which shows the day after or before the one shown%s\n",
                more > 1 ? " [DRAW CAPACITY RATE CHARGE]" : "",
                more > 1 ? ";\n"
                           "DRAW is what the hall draws in a day, CAPACITY what the bank can hold, RATE what the charger\n"
                           "gives in an hour, CHARGE what the bank holds (on a rest day: will hold when the stretch ends):\n"
                           "watt-hours, as 20000, and all four or none"
                         : "");
        return 2;
    }
    return show(wing, argv[2], &m, &c, keys);
}
