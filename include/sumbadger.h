/* Block Mine and Block Cutter for a host in C: the exports of the crate `host` (crates/host), in libhost.a.
 *
 * A call takes a state by value and gives one by value; nothing is kept between calls and nothing is allocated.
 * A refused call gives a number (SUMBADGER_CELLS and so on) with its place, and everything else as it came.
 *
 * A flag is a byte, 0 or 1. A state with any other byte in its place is refused, in the order below:
 * SUMBADGER_CELLS for a mark or trailing, SUMBADGER_NUMBERS for dead, won or won_level. A state that a call gave has none.
 *
 * A pointer with a length points to so many bytes and is never NULL, not even where the length is 0; a frame is
 * not shared with anything else during the call. That is all a host has to see to: every other value is checked.
 *
 * No header is included: gcc and clang know __SIZE_TYPE__ by themselves. */
#ifndef SUMBADGER_H
#define SUMBADGER_H

#ifdef __cplusplus
extern "C" {
#endif

typedef __SIZE_TYPE__ sumbadger_size; /* size_t */

/* Refusal numbers: what is wrong, and what to mend. They are checked in the order 1, 2, 31 to 36, 4, 5, 8, 7, 6, and the
 * first that applies is given. 'The state's', below, are 1, 2, 31 to 36, 4; the creatures' are 31 first, then creature by
 * creature 32 to 35 in this order, 36 last. */
enum {
    SUMBADGER_NONE = 0,
    /* A cell code, a mark, the ring, trailing, or line cells against it. Mine: codes 0 to 5, marks 0 or 1. Cutter: codes
     * 0 to 2, the outer ring claimed, trailing 0 or 1, and line cells just where it is 1. */
    SUMBADGER_CELLS = 1,
    /* The player's place, or Cutter's direction. Mine: on an empty cell of the grid. Cutter: on a line cell where
     * trailing, else on a claimed one; of dx and dy one is 0, the other -1, 0 or 1. */
    SUMBADGER_PLAYER = 2,
    /* Coins, needed, lives or level; dead, won or won_level. Mine: coins and coin cells together at most 336, needed 1 to
     * 336. Cutter: lives at most 3, level 1 to 65,535. The flags: 0 or 1. */
    SUMBADGER_NUMBERS = 4,
    /* A direction command above 3: give 0 to 3. */
    SUMBADGER_COMMAND = 5,
    /* In a picture, a frame that isn't 1,024 bytes: lend one that is. */
    SUMBADGER_FRAME = 6,
    /* Draws: wrong number, or one out of range. Four to a creature, below 62, 30, 2, 2; none to a pass that starts no level. */
    SUMBADGER_DRAWS = 7,
    /* A new level is due and the level is 65,535: there is none after it, so start a new round. */
    SUMBADGER_LAST_LEVEL = 8,
    /* Too many creatures: lower the count to 8 (Mine) or 16 (Cutter). */
    SUMBADGER_TOO_MANY = 31,
    /* The creature `at` is off the grid: x below 24 and y below 14 (Mine), x below 64 and y below 32 (Cutter). */
    SUMBADGER_OFF_GRID = 32,
    /* The creature `at` is on a wrong cell: put it on an empty one (Mine), on a black one (Cutter). */
    SUMBADGER_WRONG_CELL = 33,
    /* The creature `at` has a wrong direction or velocity: dir 0 to 3 (Mine), vx and vy each -1 or 1 (Cutter). */
    SUMBADGER_HEADING = 34,
    /* Mine: the creature `at` shares its cell with an earlier one: put one of them elsewhere. */
    SUMBADGER_SHARED_CELL = 35,
    /* The slot `at`, past the count, isn't zeros: clear it, or raise the count if a creature is meant. */
    SUMBADGER_SPARE_SLOT = 36
};

/* A refusal: its number and, with 32 to 36, the index of the creature or slot in `enemies`, from 0 on; else 0. */
typedef struct {
    unsigned char number;
    sumbadger_size at;
} sumbadger_refusal;

/* What a pass answers. */
enum {
    SUMBADGER_GOING_ON = 0,
    SUMBADGER_WON = 1,
    SUMBADGER_DEAD = 2,
    SUMBADGER_OVER = 3,
    SUMBADGER_QUIT = 4
};

/* Direction commands, and the keys of a pass. Other keys are ignored. */
enum { SUMBADGER_UP = 0, SUMBADGER_RIGHT = 1, SUMBADGER_DOWN = 2, SUMBADGER_LEFT = 3 };
enum {
    SUMBADGER_KEY_UP = 5,
    SUMBADGER_KEY_LEFT = 7,
    SUMBADGER_KEY_DOWN = 8,
    SUMBADGER_KEY_RIGHT = 9,
    SUMBADGER_KEY_QUIT = 10
};

/* Sizes. */
enum {
    SUMBADGER_MINE_WIDTH = 24,
    SUMBADGER_MINE_HEIGHT = 14,
    SUMBADGER_MINE_CELLS = 336,
    SUMBADGER_MINE_ENEMIES = 8,
    SUMBADGER_CUTTER_WIDTH = 64,
    SUMBADGER_CUTTER_HEIGHT = 32,
    SUMBADGER_CUTTER_CELLS = 2048,
    SUMBADGER_CUTTER_ENEMIES = 16,
    SUMBADGER_FRAME_LENGTH = 1024,
    SUMBADGER_PAGES = 8
};

/* ---- both games */

/* The pacing record: clock marks of Mine's gravity and creatures, of Cutter's step and creatures. */
typedef struct {
    unsigned int first;
    unsigned int second;
} sumbadger_marks;

/* Who is at a cell: found 1, the index of the first and the number there, or found 0, index 0 and number 0. */
typedef struct {
    unsigned char found;
    sumbadger_size index;
    sumbadger_size number;
} sumbadger_found;

/* A part of the caller's own frame. */
typedef struct {
    sumbadger_size start;
    sumbadger_size length;
} sumbadger_part;

/* The record of a first reading of the clock, which ticks nothing. */
sumbadger_marks sumbadger_start(unsigned int time);

/* Page p of a frame of `size` bytes: 128 bytes from 128 p on; start and length 0 for p above 7 or a size other than 1,024. */
sumbadger_part sumbadger_page(sumbadger_size size, sumbadger_size p);

/* ---- Block Mine */

/* A creature; dir is the direction it last travelled. */
typedef struct {
    sumbadger_size x;
    sumbadger_size y;
    unsigned char dir;
} sumbadger_enemy;

/* Cells are row by row: 0 empty, 1 dirt, 2 wall, 3 boulder, 4 coin, 5 exit. Slots past the count hold zeros. */
typedef struct {
    unsigned char grid[SUMBADGER_MINE_CELLS];
    unsigned char falling[SUMBADGER_MINE_CELLS]; /* flags: the marks */
    sumbadger_size px;
    sumbadger_size py;
    sumbadger_enemy enemies[SUMBADGER_MINE_ENEMIES];
    sumbadger_size count;
    unsigned int coins;
    unsigned int needed;
    unsigned char dead; /* flag */
    unsigned char won;  /* flag */
} sumbadger_mine;

typedef struct {
    sumbadger_refusal refusal;
    sumbadger_mine game;
} sumbadger_mine_answer;

typedef struct {
    sumbadger_refusal refusal;
    unsigned char answer;
    sumbadger_marks marks;
    sumbadger_mine game;
} sumbadger_mine_passed;

/* The list of a question: the first `count` of these, all of them where it is more. Nothing of it is checked. */
typedef struct {
    sumbadger_enemy enemies[SUMBADGER_MINE_ENEMIES];
    sumbadger_size count;
} sumbadger_enemies;

/* The loaded mine. */
sumbadger_mine sumbadger_mine_load(void);

/* A move in a direction from 0 to 3. Refusals: the state's, 5. */
sumbadger_mine_answer sumbadger_mine_step_player(sumbadger_mine game, unsigned char dir);

/* One gravity tick. Refusals: the state's. */
sumbadger_mine_answer sumbadger_mine_gravity(sumbadger_mine game);

/* One creature tick. Refusals: the state's. */
sumbadger_mine_answer sumbadger_mine_move_enemies(sumbadger_mine game);

/* One turn of the game's loop: the keys in order, then the ticks that the clock makes due. Refusals: the state's. */
sumbadger_mine_passed sumbadger_mine_pass(sumbadger_mine game, const unsigned char *keys, sumbadger_size keys_length, unsigned int time, sumbadger_marks marks);

/* The picture, into a frame of 1,024 bytes; gives the refusal, one of the state's or 6. A refused call leaves every byte of the frame. */
sumbadger_refusal sumbadger_mine_render(sumbadger_mine game, unsigned char *frame, sumbadger_size frame_length);

/* The first of the list at (x, y), and how many of it are there. */
sumbadger_found sumbadger_mine_who(sumbadger_enemies list, sumbadger_size x, sumbadger_size y);

/* ---- Block Cutter */

/* A creature; each part of its velocity is -1 or 1. */
typedef struct {
    unsigned char x;
    unsigned char y;
    signed char vx;
    signed char vy;
} sumbadger_mover;

/* Cells are row by row: 0 black, 1 claimed, 2 line. Slots past the count hold zeros. */
typedef struct {
    unsigned char grid[SUMBADGER_CUTTER_CELLS];
    sumbadger_size px;
    sumbadger_size py;
    signed char dx;
    signed char dy;
    unsigned char trailing; /* flag */
    sumbadger_mover enemies[SUMBADGER_CUTTER_ENEMIES];
    sumbadger_size count;
    unsigned int level;
    unsigned int lives;
    unsigned char dead;      /* flag */
    unsigned char won_level; /* flag */
} sumbadger_cutter;

/* How many cells were taken by the search of a step's closing, at most 1,860, and by the walk to the border, at most 2,048. Zero for a call without
   that search or walk, where refused, where the player was beside black already; a step by sweeps has no search. */
typedef struct {
    sumbadger_refusal refusal;
    unsigned short searched;
    unsigned short walked;
    sumbadger_cutter game;
} sumbadger_cutter_answer;

/* Those of the pass's step, or of its respawn. */
typedef struct {
    sumbadger_refusal refusal;
    unsigned char answer;
    unsigned short searched;
    unsigned short walked;
    sumbadger_marks marks;
    sumbadger_cutter game;
} sumbadger_cutter_passed;

/* Cells, and the hundredths of the ground inside the ring that are claimed, rounded down: an open line counts in none of them. Zeros where refused. */
typedef struct {
    sumbadger_refusal refusal;
    unsigned short black;
    unsigned short claimed;
    unsigned short line;
    unsigned short share;
} sumbadger_ground;

/* The list of a question: the first `count` of these, all of them where it is more. Nothing of it is checked. */
typedef struct {
    sumbadger_mover enemies[SUMBADGER_CUTTER_ENEMIES];
    sumbadger_size count;
} sumbadger_movers;

/* A new round: level 1, 3 lives, 4 draws. Refused (7), the state holds zeros. */
sumbadger_cutter_answer sumbadger_cutter_new_round(const unsigned char *draws, sumbadger_size draws_length);

/* A fresh level for the state's own level: four draws to a creature, below 62, 30, 2, 2. Refusals: the state's, 7. */
sumbadger_cutter_answer sumbadger_cutter_new_level(sumbadger_cutter game, const unsigned char *draws, sumbadger_size draws_length);

/* Sets the direction, from 0 to 3. Refusals: the state's, 5. */
sumbadger_cutter_answer sumbadger_cutter_direction(sumbadger_cutter game, unsigned char dir);

/* One step in the direction. Refusals: the state's. */
sumbadger_cutter_answer sumbadger_cutter_step_player(sumbadger_cutter game);

/* The same step, where a cut is closed by plain sweeps: for teaching. It gives what the step above gives, takes longer, and needs
   4,096 bytes of stack more where it closes. Refusals: the state's. */
sumbadger_cutter_answer sumbadger_cutter_step_by_sweeps(sumbadger_cutter game);

/* One creature tick. Refusals: the state's. */
sumbadger_cutter_answer sumbadger_cutter_step_enemies(sumbadger_cutter game);

/* The line is black again, and the player back at the start. Refusals: the state's. */
sumbadger_cutter_answer sumbadger_cutter_respawn(sumbadger_cutter game);

/* One turn of the game's loop. Draws only where it starts a level, of the level after the state's: four to a
 * creature, of which there are as many as the level's number, 16 at most. Refusals: the state's, 8, 7. */
sumbadger_cutter_passed sumbadger_cutter_pass(sumbadger_cutter game, const unsigned char *keys, sumbadger_size keys_length, const unsigned char *draws, sumbadger_size draws_length, unsigned int time, sumbadger_marks marks);

/* The picture, into a frame of 1,024 bytes; gives the refusal, one of the state's or 6. A refused call leaves every byte of the frame. */
sumbadger_refusal sumbadger_cutter_render(sumbadger_cutter game, unsigned char *frame, sumbadger_size frame_length);

/* The ground report. Refusals: the state's. */
sumbadger_ground sumbadger_cutter_ground_report(sumbadger_cutter game);

/* The first of the list at (x, y), and how many of it are there. */
sumbadger_found sumbadger_cutter_who(sumbadger_movers list, sumbadger_size x, sumbadger_size y);

/* ---- the layout that the archive has, on x86-64 and on Arm of 64 bits */

#define SUMBADGER_HAS_SIZE(type, bytes) typedef char type##_has_its_size[sizeof(type) == (bytes) ? 1 : -1]
SUMBADGER_HAS_SIZE(sumbadger_refusal, 16);
SUMBADGER_HAS_SIZE(sumbadger_marks, 8);
SUMBADGER_HAS_SIZE(sumbadger_found, 24);
SUMBADGER_HAS_SIZE(sumbadger_part, 16);
SUMBADGER_HAS_SIZE(sumbadger_mine, 904);
SUMBADGER_HAS_SIZE(sumbadger_mine_answer, 920);
SUMBADGER_HAS_SIZE(sumbadger_mine_passed, 936);
SUMBADGER_HAS_SIZE(sumbadger_enemies, 200);
SUMBADGER_HAS_SIZE(sumbadger_cutter, 2160);
SUMBADGER_HAS_SIZE(sumbadger_cutter_answer, 2184);
SUMBADGER_HAS_SIZE(sumbadger_cutter_passed, 2192);
SUMBADGER_HAS_SIZE(sumbadger_ground, 24);
SUMBADGER_HAS_SIZE(sumbadger_movers, 72);

#ifdef __cplusplus
}
#endif

#endif
