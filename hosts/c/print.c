/* What round.c prints. */
#include "print.h"

/* C's own, declared here so that no system header is needed. */
long write(int file, const void *from, unsigned long length);

enum { COLUMNS = 128, ROWS = 64 };

static char out[1 << 16];
static sumbadger_size end;

void flush(void) {
    sumbadger_size at = 0;
    while (at < end) {
        long n = write(1, out + at, end - at);
        if (n <= 0) {
            break;
        }
        at += (sumbadger_size)n;
    }
    end = 0;
}

void put(char c) {
    if (end == sizeof out) {
        flush();
    }
    out[end++] = c;
}

void put_text(const char *text, sumbadger_size length) {
    for (sumbadger_size i = 0; i < length; i++) {
        put(text[i]);
    }
}

void put_number(unsigned long n) {
    char digits[20];
    int at = 0;
    do {
        digits[at++] = (char)('0' + n % 10);
        n /= 10;
    } while (n != 0);
    put(' ');
    while (at > 0) {
        put(digits[--at]);
    }
}

void put_refusal(sumbadger_refusal refusal) {
    put_number(refusal.number);
    if (31 <= refusal.number && refusal.number <= 36) {
        put_text(" at", 3);
        put_number(refusal.at);
    }
}

static void put_signed(signed char n) {
    if (n < 0) {
        put_text(" -1", 3);
    } else {
        put_number((unsigned long)n);
    }
}

/* ---- the sum over a state */

static unsigned long sum;

static void add_byte(unsigned char byte) {
    sum = (sum ^ byte) * 1099511628211UL;
}

static void add_bytes(const unsigned char *bytes, sumbadger_size length) {
    for (sumbadger_size i = 0; i < length; i++) {
        add_byte(bytes[i]);
    }
}

static void add_number(unsigned long n, int width) {
    for (int i = 0; i < width; i++) {
        add_byte((unsigned char)(n >> 8 * i & 255));
    }
}

unsigned long sum_of(const unsigned char *bytes, sumbadger_size length) {
    sum = 14695981039346656037UL;
    add_bytes(bytes, length);
    return sum;
}

unsigned long mine_sum(const sumbadger_mine *m) {
    sum_of(m->grid, sizeof m->grid);
    add_bytes(m->falling, sizeof m->falling);
    add_number(m->px, 8);
    add_number(m->py, 8);
    for (int i = 0; i < SUMBADGER_MINE_ENEMIES; i++) {
        add_number(m->enemies[i].x, 8);
        add_number(m->enemies[i].y, 8);
        add_byte(m->enemies[i].dir);
    }
    add_number(m->count, 8);
    add_number(m->coins, 4);
    add_number(m->needed, 4);
    add_byte(m->dead);
    add_byte(m->won);
    return sum;
}

unsigned long cutter_sum(const sumbadger_cutter *c) {
    sum_of(c->grid, sizeof c->grid);
    add_number(c->px, 8);
    add_number(c->py, 8);
    add_byte((unsigned char)c->dx);
    add_byte((unsigned char)c->dy);
    add_byte(c->trailing);
    for (int i = 0; i < SUMBADGER_CUTTER_ENEMIES; i++) {
        add_byte(c->enemies[i].x);
        add_byte(c->enemies[i].y);
        add_byte((unsigned char)c->enemies[i].vx);
        add_byte((unsigned char)c->enemies[i].vy);
    }
    add_number(c->count, 8);
    add_number(c->level, 4);
    add_number(c->lives, 4);
    add_byte(c->dead);
    add_byte(c->won_level);
    return sum;
}

void put_mine(const sumbadger_mine *m) {
    unsigned long numbers[] = {m->px, m->py, m->coins, m->needed, m->count, m->dead, m->won, mine_sum(m)};
    for (int i = 0; i < 8; i++) {
        put_number(numbers[i]);
    }
}

void put_cutter(const sumbadger_cutter *c) {
    unsigned long numbers[] = {c->trailing, c->count, c->level, c->lives, c->dead, c->won_level, cutter_sum(c)};
    put_number(c->px);
    put_number(c->py);
    put_signed(c->dx);
    put_signed(c->dy);
    for (int i = 0; i < 7; i++) {
        put_number(numbers[i]);
    }
}

void put_picture(const unsigned char *frame) {
    static const char *const blocks[] = {" ", "\342\226\200", "\342\226\204", "\342\226\210"};
    for (int y = 0; y < ROWS; y += 2) {
        put('\n');
        for (int x = 0; x < COLUMNS; x++) {
            int two = frame[y / 8 * COLUMNS + x] >> y % 8 & 3;
            put_text(blocks[two], two == 0 ? 1 : 3);
        }
    }
}
