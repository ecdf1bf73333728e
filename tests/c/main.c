/* Calls every exported function of the archive on good and bad input. */
#include <stdarg.h>
#include <stdio.h>
#include <stdlib.h>
#include <string.h>

#include "check.h"

const uint64_t BAD_WINGS[] = {0, 3, (UINT64_C(1) << 32) + 1, (UINT64_C(1) << 32) + 2, UINT64_MAX};
const uint64_t BAD_DAYS[] = {0, BD_FIRST_DAY - 1, BD_LAST_DAY + 1, (UINT64_C(1) << 32) + 2456928, UINT64_MAX};
const uint64_t BAD_YEARS[] = {0, 10000, (UINT64_C(1) << 32) + 5762, UINT64_MAX};

static const char *group_name;
static char question[120];
static unsigned long checks;

void begin(const char *group)
{
    group_name = group;
    question[0] = '\0';
    checks = 0;
}

void end(void)
{
    printf("C calls: %s: %lu checks\n", group_name, checks);
    fflush(stdout);
}

void asking(const char *format, ...)
{
    va_list words;
    va_start(words, format);
    vsnprintf(question, sizeof question, format, words);
    va_end(words);
}

void same(const char *field, uint64_t got, uint64_t want)
{
    ++checks;
    if (got == want) return;
    printf("FAILED: C calls: %s: %s: %s is %" PRIu64 " and must be %" PRIu64 "\n", group_name, question, field, got, want);
    exit(1);
}

void same_signed(const char *field, int64_t got, int64_t want)
{
    ++checks;
    if (got == want) return;
    printf("FAILED: C calls: %s: %s: %s is %" PRId64 " and must be %" PRId64 "\n", group_name, question, field, got, want);
    exit(1);
}

void same_text(const char *field, const char *got, const char *want)
{
    ++checks;
    if (strcmp(got, want) == 0) return;
    printf("FAILED: C calls: %s: %s: %s is '%s' and must be '%s'\n", group_name, question, field, got, want);
    exit(1);
}

int main(void)
{
    layout();
    names();
    civil_dates();
    new_years();
    hebrew_dates();
    rest_days();
    fasts();
    every_year();
    every_day();
    charging();
    records();
    sheets();
    loaded();
    no_sheets();
    content();
    refusal_order();
    changed();
    return 0;
}
