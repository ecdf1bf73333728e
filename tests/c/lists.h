/* A call that writes a year's list into lent entries, asked with every length of them. */
#ifndef LISTS_H
#define LISTS_H

#include <bournedrouth.h>

typedef struct {
    const char *name;
    bd_list_answer (*call)(uint64_t wing, uint64_t year, uint64_t *out, size_t length);
    int wingless; /* the exported call takes no wing */
} lister;

/* A list into every length of buffer from none to more than enough, and without a buffer. */
void every_length(const lister *list, uint64_t wing, uint64_t year, uint64_t count, const uint64_t *want, size_t entries);

/* Refused whatever is lent: more room than enough, none, or no buffer. */
void refused_list(const lister *list, uint64_t wing, uint64_t year, uint64_t refusal);

#endif
