// The port's exports, called by pointers. A state goes in by value, which is a copy; a state that
// comes out is written where `out` points, as x86-64 has it. `run` compiles this file by the kit's
// clang, which compiles the port.
typedef unsigned char u8;
typedef unsigned short u16;
typedef unsigned int u32;
typedef unsigned long usize;

typedef struct {
    usize words[904 / 8];
} Mine;

typedef struct {
    usize words[2160 / 8];
} Cutter;

typedef struct {
    u8 number;
    usize at;
} Refusal;

typedef struct {
    Refusal refusal;
    u16 black, claimed, line, share;
} Ground;

#define RULE(Game, name)                                                                           \
    void *name(Game *out, Game in);                                                                \
    void by_##name(const Game *in, Game *out) { name(out, *in); }

#define NUMBER(Game, Result, name)                                                                 \
    Result name(Game in);                                                                          \
    Result by_##name(const Game *in) { return name(*in); }

#define PICTURE(Game, name)                                                                        \
    void name(Game in, u8 *frame, usize length);                                                   \
    void by_##name(const Game *in, u8 *frame, usize length) { name(*in, frame, length); }

RULE(Mine, copy_mine)
RULE(Mine, rule_mine_gravity)
RULE(Mine, rule_mine_tick)
RULE(Cutter, copy_cutter)
RULE(Cutter, rule_cutter_tick)

NUMBER(Mine, Refusal, check_mine)
NUMBER(Cutter, Refusal, check_cutter)
NUMBER(Cutter, usize, rule_cutter_walk)
NUMBER(Cutter, Ground, call_cutter_ground)

PICTURE(Mine, rule_mine_picture)
PICTURE(Cutter, rule_cutter_picture)

typedef struct {
    usize px, py;
    u32 coins, needed;
    _Bool dead, won;
} Player;

typedef struct {
    usize count;
    u32 coins;
    _Bool dead;
} Fallen;

void *rule_mine_step_on(Player *out, u8 *grid, const u16 *spots, usize px, usize py, u32 coins,
                        u32 needed, _Bool dead, _Bool won, u8 dir);
void by_rule_mine_step_on(u8 *grid, const u16 *spots, Player *p, u8 dir) {
    rule_mine_step_on(p, grid, spots, p->px, p->py, p->coins, p->needed, p->dead, p->won, dir);
}

Fallen rule_mine_gravity_on(u8 *grid, _Bool *falling, u16 *spots, u8 *dirs, Fallen s, usize px,
                            usize py);
void by_rule_mine_gravity_on(u8 *grid, _Bool *falling, u16 *spots, u8 *dirs, Fallen *s, usize px,
                             usize py) {
    *s = rule_mine_gravity_on(grid, falling, spots, dirs, *s, px, py);
}

typedef struct {
    u8 bytes[64];
} Movers;

typedef struct {
    Movers movers;
    _Bool met;
} Moved;

void *rule_cutter_tick_on(Moved *out, const u8 *grid, Movers movers, usize count);
void by_rule_cutter_tick_on(const u8 *grid, const Movers *movers, usize count, Moved *out) {
    rule_cutter_tick_on(out, grid, *movers, count);
}

void *rule_mine_load(Mine *out);
void by_rule_mine_load(Mine *out) { rule_mine_load(out); }

void *rule_mine_step(Mine *out, Mine in, u8 dir);
void by_rule_mine_step(const Mine *in, u8 dir, Mine *out) { rule_mine_step(out, *in, dir); }

void *call_mine_pass(Mine *out, Mine in, const u8 *keys, usize n, u32 time, u32 first, u32 second);
void by_call_mine_pass(const Mine *in, const u8 *keys, usize n, u32 time, Mine *out) {
    call_mine_pass(out, *in, keys, n, time, 0, 0);
}

typedef struct {
    usize words[40 / 8];
} Step;

void *rule_cutter_step_on(Step *out, u8 *grid, Movers movers, usize count, usize px, usize py,
                          signed char dx, signed char dy, _Bool trailing, _Bool dead);
void by_rule_cutter_step_on(u8 *grid, const Movers *movers, usize count, usize px, usize py,
                            signed char dx, signed char dy, _Bool trailing, _Bool dead, Step *out) {
    rule_cutter_step_on(out, grid, *movers, count, px, py, dx, dy, trailing, dead);
}

void *rule_cutter_level(Cutter *out, Cutter in, const u8 *draws, usize n);
void by_rule_cutter_level(const Cutter *in, const u8 *draws, usize n, Cutter *out) {
    rule_cutter_level(out, *in, draws, n);
}

typedef struct {
    usize words[2168 / 8];
} Made;

typedef struct {
    usize words[2184 / 8];
} Answer;

#define CALL(Result, name)                                                                         \
    void *name(Result *out, Cutter in);                                                            \
    void by_##name(const Cutter *in, Result *out) { name(out, *in); }

CALL(Made, rule_cutter_step)
CALL(Made, rule_cutter_step_by_sweeps)
CALL(Made, rule_cutter_respawn)
CALL(Answer, call_cutter_step)
CALL(Answer, call_cutter_step_by_sweeps)

void *call_cutter_pass(Cutter *out, Cutter in, const u8 *keys, usize n, const u8 *draws, usize k,
                       u32 time, u32 first, u32 second);
void by_call_cutter_pass(const Cutter *in, const u8 *keys, usize n, u32 time, Cutter *out) {
    call_cutter_pass(out, *in, keys, n, keys, 0, time, 0, 0);
}

typedef struct {
    usize index, number;
} There;

typedef struct {
    usize words[200 / 8];
} MineList;

typedef struct {
    usize words[72 / 8];
} CutterList;

#define WHO(List, name)                                                                            \
    There name(List list, usize x, usize y);                                                       \
    There by_##name(const List *list, usize x, usize y) { return name(*list, x, y); }

WHO(MineList, call_mine_who)
WHO(CutterList, call_cutter_who)
