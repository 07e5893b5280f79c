/* Plays a script of calls through libhost.a, from standard input, and prints what each call gives. A line of the
 * script is the name of an export without `sumbadger_`, then its numbers; a pass has its reading, its keys and, behind
 * a `/`, its draws. A number in front plays the call so many times. `#` starts a comment. */
#include "print.h"

/* C's own, declared here so that no system header is needed. */
long read(int file, void *to, unsigned long length);

enum { MOST = 80, STALE = 165 };

typedef struct {
    const char *name;
    sumbadger_size name_length;
    unsigned long times;
    sumbadger_size count;
    sumbadger_size draw_count;
    unsigned char low[MOST];   /* the numbers as bytes: keys from 1 on, or draws */
    unsigned char draws[MOST]; /* those behind the `/` */
    unsigned long numbers[MOST];
} line;

static sumbadger_mine mine;
static sumbadger_cutter cutter;
static sumbadger_marks marks;
static unsigned char frame[SUMBADGER_FRAME_LENGTH];

/* ---- the calls */

static int is(const line *l, const char *name) {
    sumbadger_size i = 0;
    while (i < l->name_length && name[i] == l->name[i]) {
        i++;
    }
    return i == l->name_length && name[i] == 0;
}

static void gave_mine(sumbadger_mine_answer a) {
    mine = a.game;
    put_refusal(a.refusal);
    put_mine(&mine);
}

static void gave_cutter(sumbadger_cutter_answer a) {
    cutter = a.game;
    put_refusal(a.refusal);
    put_number(a.searched);
    put_number(a.walked);
    put_cutter(&cutter);
}

static void gave_marks(void) {
    put_number(marks.first);
    put_number(marks.second);
}

static void gave_found(sumbadger_found f) {
    put_number(f.found);
    put_number(f.index);
    if (f.found != 0) {
        put_number(f.number);
    }
}

static void gave_picture(sumbadger_refusal refusal, sumbadger_size length) {
    put_refusal(refusal);
    put_number(sum_of(frame, length));
    if (refusal.number == SUMBADGER_NONE) {
        put_picture(frame);
    }
}

/* A frame of so many bytes, 1,024 at most, that holds what was there before. */
static sumbadger_size stale_frame(unsigned long length) {
    for (int i = 0; i < SUMBADGER_FRAME_LENGTH; i++) {
        frame[i] = STALE;
    }
    return length < SUMBADGER_FRAME_LENGTH ? length : SUMBADGER_FRAME_LENGTH;
}

/* A call on a bad mine (a mark, dead, won, the first cell, x, count, needed): the refusal, and whether every byte came back. */
static void try_mine(sumbadger_mine m, const line *l) {
    m.falling[SUMBADGER_MINE_CELLS - 1] = l->low[0];
    m.dead = l->low[1];
    m.won = l->low[2];
    m.grid[0] = l->low[3];
    m.px = l->numbers[4];
    m.count = l->numbers[5];
    m.needed = (unsigned int)l->numbers[6];
    sumbadger_mine_answer a = sumbadger_mine_gravity(m);
    put_refusal(a.refusal);
    put_number(mine_sum(&a.game) == mine_sum(&m));
}

/* The same of a bad ground: trailing, dead, won, the first cell, x, count, lives. */
static void try_cutter(sumbadger_cutter c, const line *l) {
    c.trailing = l->low[0];
    c.dead = l->low[1];
    c.won_level = l->low[2];
    c.grid[0] = l->low[3];
    c.px = l->numbers[4];
    c.count = l->numbers[5];
    c.lives = (unsigned int)l->numbers[6];
    sumbadger_cutter_answer a = sumbadger_cutter_step_enemies(c);
    put_refusal(a.refusal);
    put_number(cutter_sum(&a.game) == cutter_sum(&c));
}

static void play_mine(const line *l) {
    if (is(l, "mine_load")) {
        mine = sumbadger_mine_load();
        put_mine(&mine);
    } else if (is(l, "mine_step_player")) {
        gave_mine(sumbadger_mine_step_player(mine, l->low[0]));
    } else if (is(l, "mine_gravity")) {
        gave_mine(sumbadger_mine_gravity(mine));
    } else if (is(l, "mine_move_enemies")) {
        gave_mine(sumbadger_mine_move_enemies(mine));
    } else if (is(l, "mine_pass")) {
        sumbadger_mine_passed p = sumbadger_mine_pass(mine, l->low + 1, l->count - 1, (unsigned int)l->numbers[0], marks);
        mine = p.game;
        marks = p.marks;
        put_refusal(p.refusal);
        put_number(p.answer);
        gave_marks();
        put_mine(&mine);
    } else if (is(l, "mine_render")) {
        sumbadger_size length = stale_frame(l->numbers[0]);
        gave_picture(sumbadger_mine_render(mine, frame, length), length);
    } else if (is(l, "mine_who")) {
        sumbadger_enemies list;
        for (int i = 0; i < SUMBADGER_MINE_ENEMIES; i++) {
            list.enemies[i] = mine.enemies[i];
        }
        list.count = mine.count;
        gave_found(sumbadger_mine_who(list, l->numbers[0], l->numbers[1]));
    } else if (is(l, "mine_try")) {
        try_mine(mine, l);
    } else {
        put_text(" unknown", 8);
    }
}

static void play_cutter(const line *l) {
    if (is(l, "cutter_new_round")) {
        gave_cutter(sumbadger_cutter_new_round(l->low, l->count));
    } else if (is(l, "cutter_new_level")) {
        gave_cutter(sumbadger_cutter_new_level(cutter, l->low, l->count));
    } else if (is(l, "cutter_direction")) {
        gave_cutter(sumbadger_cutter_direction(cutter, l->low[0]));
    } else if (is(l, "cutter_step_by_sweeps")) {
        gave_cutter(sumbadger_cutter_step_by_sweeps(cutter));
    } else if (is(l, "cutter_step_player")) {
        gave_cutter(sumbadger_cutter_step_player(cutter));
    } else if (is(l, "cutter_step_enemies")) {
        gave_cutter(sumbadger_cutter_step_enemies(cutter));
    } else if (is(l, "cutter_respawn")) {
        gave_cutter(sumbadger_cutter_respawn(cutter));
    } else if (is(l, "cutter_pass")) {
        sumbadger_cutter_passed p = sumbadger_cutter_pass(
            cutter, l->low + 1, l->count - 1, l->draws, l->draw_count, (unsigned int)l->numbers[0], marks);
        cutter = p.game;
        marks = p.marks;
        put_refusal(p.refusal);
        put_number(p.answer);
        put_number(p.searched);
        put_number(p.walked);
        gave_marks();
        put_cutter(&cutter);
    } else if (is(l, "cutter_render")) {
        sumbadger_size length = stale_frame(l->numbers[0]);
        gave_picture(sumbadger_cutter_render(cutter, frame, length), length);
    } else if (is(l, "cutter_ground_report")) {
        sumbadger_ground g = sumbadger_cutter_ground_report(cutter);
        unsigned long numbers[] = {g.black, g.claimed, g.line, g.share};
        put_refusal(g.refusal);
        for (int i = 0; i < 4; i++) {
            put_number(numbers[i]);
        }
    } else if (is(l, "cutter_who")) {
        sumbadger_movers list;
        for (int i = 0; i < SUMBADGER_CUTTER_ENEMIES; i++) {
            list.enemies[i] = cutter.enemies[i];
        }
        list.count = cutter.count;
        gave_found(sumbadger_cutter_who(list, l->numbers[0], l->numbers[1]));
    } else if (is(l, "cutter_try")) {
        try_cutter(cutter, l);
    } else {
        put_text(" unknown", 8);
    }
}

static void play(const line *l) {
    put_text(l->name, l->name_length);
    if (is(l, "start")) {
        marks = sumbadger_start((unsigned int)l->numbers[0]);
        gave_marks();
    } else if (is(l, "page")) {
        sumbadger_part p = sumbadger_page(l->numbers[0], l->numbers[1]);
        put_number(p.start);
        put_number(p.length);
    } else if (l->name[0] == 'm') {
        play_mine(l);
    } else {
        play_cutter(l);
    }
    put('\n');
}

/* ---- the script */

static int digit(char c) {
    return '0' <= c && c <= '9';
}

static const char *number(const char *at, unsigned long *n) {
    *n = 0;
    while (digit(*at)) {
        *n = *n * 10 + (unsigned long)(*at++ - '0');
    }
    return at;
}

/* Reads a line; gives where the next one starts. Its name_length is 0 where it holds no call. */
static const char *read_line(const char *at, line *l) {
    int draws = 0;
    l->name_length = l->count = l->draw_count = 0;
    l->times = 1;
    if (digit(*at)) {
        at = number(at, &l->times);
    }
    while (*at == ' ') {
        at++;
    }
    l->name = at;
    if (*at != '#') {
        while (*at > ' ') {
            at++;
            l->name_length++;
        }
    }
    while (*at != 0 && *at != '\n') {
        unsigned long n;
        if (!digit(*at) || l->name_length == 0) {
            draws = draws || *at == '/';
            at++;
            continue;
        }
        at = number(at, &n);
        if (draws && l->draw_count < MOST) {
            l->draws[l->draw_count++] = (unsigned char)n;
        } else if (!draws && l->count < MOST) {
            l->low[l->count] = (unsigned char)n;
            l->numbers[l->count++] = n;
        }
    }
    return *at == '\n' ? at + 1 : at;
}

int main(void) {
    static char script[1 << 14];
    static line l;
    sumbadger_size length = 0;
    long n;
    while (length + 1 < sizeof script && (n = read(0, script + length, sizeof script - 1 - length)) > 0) {
        length += (sumbadger_size)n;
    }
    for (const char *at = script; *at != 0;) {
        at = read_line(at, &l);
        for (unsigned long i = 0; l.name_length != 0 && i < l.times; i++) {
            play(&l);
        }
    }
    flush();
    return 0;
}
