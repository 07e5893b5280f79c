/* What round.c prints: text, numbers with a space before each, states and pictures. */
#ifndef PRINT_H
#define PRINT_H

#include "sumbadger.h"

void put(char c);
void put_text(const char *text, sumbadger_size length);
void put_number(unsigned long n);
/* Its number and, where that has a place, ` at ` and the place. */
void put_refusal(sumbadger_refusal refusal);
/* Writes what was put. */
void flush(void);

/* A sum (FNV-1a, 64 bits) over bytes, and over every field of a state in order, low byte first. */
unsigned long sum_of(const unsigned char *bytes, sumbadger_size length);
unsigned long mine_sum(const sumbadger_mine *m);
unsigned long cutter_sum(const sumbadger_cutter *c);

/* x, y, coins, needed, creatures, dead, won, sum; x, y, direction, trailing, creatures, level, lives, dead, won, sum. */
void put_mine(const sumbadger_mine *m);
void put_cutter(const sumbadger_cutter *c);

/* A whole frame in half blocks, two rows of pixels to a line. */
void put_picture(const unsigned char *frame);

#endif
