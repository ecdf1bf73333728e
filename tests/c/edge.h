/* Bytes that are lent at the edge of what can be read: a call that looks at one byte behind them ends the program. */
#ifndef EDGE_H
#define EDGE_H

#include <stddef.h>
#include <stdint.h>

/* The most bytes that are lent so. */
enum { EDGE_ROOM = 65536 };

/* The edge itself: no byte of the EDGE_ROOM from here on can be read. */
uint8_t *edge(void);
/* Copies the bytes to the place right before the edge, and returns that place. */
uint8_t *before_edge(const uint8_t *bytes, size_t length);

#endif
