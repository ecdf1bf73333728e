/* What the groups of tests share: one line a group that passed, and a stop at the first number that differs. */
#ifndef CHECK_H
#define CHECK_H

#include <inttypes.h>
#include <stddef.h>
#include <stdint.h>

#include <bournedrouth.h>

#define COUNT(rows) (sizeof(rows) / sizeof *(rows))

/* What no call may write over. */
#define GUARD UINT64_C(0xA5C35AE1D00DBEEF)

/* Numbers that are no wing: those beside the good ones, some whose low half is a good number, and the largest. */
extern const uint64_t BAD_WINGS[5];

/* Days outside the range and numbers that are no year, chosen so too. */
extern const uint64_t BAD_DAYS[5], BAD_YEARS[4];

void begin(const char *group);
void end(void);
/* Names what the next checks ask, as `bd_molad(5762, 1)`. */
void asking(const char *format, ...);
/* Stops the program with a line that names the group, the question and the field unless both are the same number. */
void same(const char *field, uint64_t got, uint64_t want);
void same_signed(const char *field, int64_t got, int64_t want);
void same_text(const char *field, const char *got, const char *want);

void layout(void);
void names(void);
void civil_dates(void);
void new_years(void);
void hebrew_dates(void);
void rest_days(void);
void fasts(void);
void every_year(void);
void every_day(void);
void charging(void);
void records(void);
void sheets(void);
void loaded(void);
void no_sheets(void);
void content(void);
void refusal_order(void);
void changed(void);

#endif
