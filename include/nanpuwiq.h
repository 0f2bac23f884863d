/* The public entries of Nanpuwiq for C, in the static library libnanpuwiq.a (`tools/prove nanpuwiq`), x86-64 Linux.
 *
 * Numbers. A code is 0, or the number of a refusal: nanpuwiq_words.h has the list of them with a sentence each, nanpuwiq_words(code) gives the sentence.
 * Each call tries its tests in an order, and the first that fails gives the number. For a game that order is 1 to 7, then 8, 9, 10 or 13, so the lowest number
 * is given. The reader tries 12, 11, then 1 to 7; the player, of a controller's table or against a panel's, 1 to 7, 16, 14, 15; the comparison of recordings
 * 1 to 7, 16, then 14, 15 step by step; a kit 1, 17, 18, then 2 to 10; the map on the joined positions 1 to 7, 24, 8; the explanation of a position 1 to 7,
 * 25, 8; the calls with bars 1 to 7, 29, 28, 8; the checker of tables 1 to 7, 19, 20, 8; a table that is moved 1 to 7, 23, 22 or 21, 9.
 *
 * Every value of every parameter has an answer, and on a refusal every buffer holds what it held before. What each entry promises is proved
 * in crates/nanpuwiq (specs/Calls.antt) and crates/nanpuwiq_results (specs/Results.antt), on the following, which C cannot check and a caller keeps to:
 *  - a pointer, a recording's too, is not null, also where its length is 0, and is aligned for its type;
 *  - a length, a recording's steps too, counts elements, not bytes, and that many elements can be read (written, where the pointer is not const);
 *  - buffers and positions that are written overlap no other buffer of the same call, and no other thread uses them during it.
 * Games, kits, results and other positions go by value. No entry keeps a pointer, allocates, or has state of its own.
 *
 * The stack, in bytes beside the caller's own, that each entry takes at most on any game tried (tests/stack.py):
 *   nanpuwiq_accept              15,500
 *   nanpuwiq_won_map             22,000
 *   nanpuwiq_joined_map          24,000
 *   nanpuwiq_barred_map          31,500
 *   nanpuwiq_barred_verdict      38,000
 *   nanpuwiq_explain             29,500
 *   nanpuwiq_explain_all         36,500
 *   nanpuwiq_check              250,500
 *   nanpuwiq_solve               29,000
 *   nanpuwiq_solve_compact       34,000
 *   nanpuwiq_components          15,500
 *   nanpuwiq_to_compact          32,500
 *   nanpuwiq_to_full             22,000
 *   nanpuwiq_compact_row             64
 *   nanpuwiq_accept_kit          31,000
 *   nanpuwiq_solve_kit           41,000
 *   nanpuwiq_read                41,100
 *   nanpuwiq_write               24,000
 *   nanpuwiq_begin               20,500
 *   nanpuwiq_step                21,000
 *   nanpuwiq_advance             21,000
 *   nanpuwiq_panel_first         20,500
 *   nanpuwiq_panel_begin         20,500
 *   nanpuwiq_panel_next          20,500
 *   nanpuwiq_panel_step          20,500
 *   nanpuwiq_compare             16,500
 */
#ifndef NANPUWIQ_H
#define NANPUWIQ_H

#include <stdbool.h>
#include <stddef.h>
#include <stdint.h>

#ifdef __cplusplus
extern "C" {
#endif

#define NANPUWIQ_VERSION "0.1.0"    /* of header, library and command */
#define NANPUWIQ_STATES 128         /* states of a graph at most */
#define NANPUWIQ_SET_WORDS 2        /* words of a set */
#define NANPUWIQ_REQUIREMENTS 8     /* places for requirements */
#define NANPUWIQ_SETS 4             /* places for sets on each side of a requirement */
#define NANPUWIQ_SCRATCH_MOST 768   /* words of scratch that the largest game asks for */
#define NANPUWIQ_JOINED_SCRATCH 4096  /* words of scratch that the map on the joined positions asks for */
#define NANPUWIQ_BARRED_SCRATCH 4096  /* words of scratch that the calls with bars ask for */
#define NANPUWIQ_JOINED_STATES 32   /* states of a graph at most, for that map */
#define NANPUWIQ_NONE 65535         /* the entry of a table that is none */
#define NANPUWIQ_TABLE_MOST 524416  /* entries of the longest controller's table; the longest panel's has 524289 */
#define NANPUWIQ_COMPACT_MOST 524544  /* of the longest controller's table in the compact layout */
#define NANPUWIQ_TEXT_MOST 40960    /* bytes of the longest text that is read; a large game's may be longer */
#define NANPUWIQ_WALK_ROOM 24576    /* entries of the room that the checker's walk is lent */
#define NANPUWIQ_CHECKED_PLACES 4096  /* inputs * outputs * values of the counter at most, of a table that is checked */
#define NANPUWIQ_POSITIONS_MOST 16384  /* positions of the largest game, each an entry for its ground */
#define NANPUWIQ_COMMANDS 16        /* commands of a drive at most */
#define NANPUWIQ_BARRED 255         /* the next mode where a command is barred */
#define NANPUWIQ_KIT_MOST 8388736   /* entries of the longest kit's table */

/* State numbers, from 0. Those of inputs (the old drive, moved by the panel) and of outputs (the new drive) are types of their own. */
typedef struct { size_t number; } nanpuwiq_in_state;
typedef struct { size_t number; } nanpuwiq_out_state;

/* A set of states: state s below 64 belongs where bit s of low is set, another where bit s - 64 of high is. */
typedef struct { uint64_t low, high; } nanpuwiq_set;
typedef struct { nanpuwiq_set states; } nanpuwiq_in_set;
typedef struct { nanpuwiq_set states; } nanpuwiq_out_set;

/* Row s of moves, its words 2 * s (low) and 2 * s + 1 (high), is the set of the states that state s moves to; rows past the count are 0. */
typedef struct {
    size_t states;
    nanpuwiq_set initial;
    uint64_t moves[NANPUWIQ_SET_WORDS * NANPUWIQ_STATES];
} nanpuwiq_graph;

/* If every assumption recurs, every guarantee does. The first `assumed` and `guaranteed` places are in use, the others 0. */
typedef struct {
    nanpuwiq_in_set assumptions[NANPUWIQ_SETS];
    size_t assumed;
    nanpuwiq_out_set guarantees[NANPUWIQ_SETS];
    size_t guaranteed;
} nanpuwiq_requirement;

/* The first k requirements are in use, the others 0. */
typedef struct {
    nanpuwiq_graph input;
    nanpuwiq_graph output;
    size_t k;
    nanpuwiq_requirement requirements[NANPUWIQ_REQUIREMENTS];
} nanpuwiq_game;

/* Place 16 * mode + command of next is the mode that the command leads to, or NANPUWIQ_BARRED; places past the counts are barred. */
typedef struct {
    size_t modes;
    nanpuwiq_set initial;
    size_t commands;
    uint8_t next[NANPUWIQ_STATES * NANPUWIQ_COMMANDS];
} nanpuwiq_drive;

/* A new drive for a panel that gives the old one's commands. The first k requirements are in use, the others 0.
 * The kit's game has the old drive's modes as inputs and the new drive's as outputs; a move is there where some command makes it. */
typedef struct {
    nanpuwiq_drive old_drive;
    nanpuwiq_drive new_drive;
    size_t k;
    nanpuwiq_requirement requirements[NANPUWIQ_REQUIREMENTS];
} nanpuwiq_kit;

/* Input, output and counter after the controller's answer; against a panel's table, after the output is picked. */
typedef struct {
    nanpuwiq_in_state input;
    nanpuwiq_out_state output;
    size_t counter;
} nanpuwiq_position;

/* Recordings of one run, a state number (0 to 127) a byte: the inputs, from the panel, and the outputs, from the drive. They are types of their own too. */
typedef struct {
    const uint8_t *states;
    size_t steps;
} nanpuwiq_in_recording;
typedef struct {
    const uint8_t *states;
    size_t steps;
} nanpuwiq_out_recording;

/* The solver's answer. On a refusal system is false and entries 0. */
typedef struct {
    uint8_t code;
    bool system;     /* whether the system wins; else the environment does */
    size_t entries;  /* how many entries of the winner's buffer are filled; of the kit's, where the system wins a kit */
} nanpuwiq_solved;

/* A table that was moved to another layout. On a refusal entries is 0. */
typedef struct {
    uint8_t code;
    size_t entries;  /* how many entries of the room are filled */
} nanpuwiq_table_moved;

/* How many components the input graph has, or 0 on a refusal. */
typedef struct {
    uint8_t code;
    size_t count;
} nanpuwiq_counted;

/* What made a position won or lost. What a ground does not name is 0; on a refusal all but the code is. */
typedef struct {
    uint8_t code;
    uint8_t ground;             /* one of the grounds below */
    nanpuwiq_out_state output;  /* the number of the home: the smallest output of that component */
    nanpuwiq_in_state input;    /* the next input, or the input entered */
    size_t requirement;         /* from 0 */
    size_t set;                 /* the output set, from 0 within its requirement */
} nanpuwiq_explained;

/* The verdict with bars: the code; whether the system wins, false on a refusal. */
typedef struct {
    uint8_t code;
    bool system;
} nanpuwiq_judged;

/* The grounds, in the order in which they are tried. */
enum {
    NANPUWIQ_INPUT_STUCK = 1,   /* won: the input has no move */
    NANPUWIQ_BY_REPLIES = 2,    /* won: every next input has a won reply; the input's component is not stayable */
    NANPUWIQ_AT_HOME = 3,       /* won with a home: the output reaches component `output`, where the controller stays while the input does */
    NANPUWIQ_OUTPUT_STUCK = 4,  /* lost: the output has no move, and the input has one */
    NANPUWIQ_UNANSWERED = 5,    /* lost: no output move makes a won position with the next input `input`; the input's component is not stayable */
    NANPUWIQ_BY_WAY_OUT = 6,    /* lost: a move out of the input's component enters `input`, which is lost with this output */
    NANPUWIQ_UNSERVED = 7,      /* lost: `requirement` is due there, and the output's component, a stayable one, misses its output set `set` */
    NANPUWIQ_PUSHED_ON = 8      /* lost: the output's component is not stayable */
};

/* What the checker finds in a table. What a finding does not name is 0. */
typedef struct {
    uint8_t code;
    uint8_t finding;          /* one of the findings below */
    nanpuwiq_in_state input;  /* of the bad start, or the next input of the bad row */
    size_t walk;              /* how many entries of the room the walk has */
    size_t begins;            /* the number of the configuration at which the closing round begins, from 0 */
    size_t requirement;       /* that the round breaks, from 0 */
} nanpuwiq_checked;

enum {
    NANPUWIQ_WINS = 0,        /* the table wins; on a refusal too the finding is 0 */
    NANPUWIQ_BAD_START = 1,   /* the start of the initial input `input` names no initial output, or no value of the counter */
    NANPUWIQ_BAD_ROW = 2,     /* after the walk the row for the next input `input`, a move, names no output move, or no value of the counter */
    NANPUWIQ_BAD_ROUND = 3    /* the walk closes a round, which begins at `begins` and breaks `requirement`; its first configuration is the last again */
};

/* The reader's answer. Place is 0 but for code 11; the game is all zero on a refusal. */
typedef struct {
    uint8_t code;
    size_t place;    /* the length of the longest front of the bytes that begins some game's text */
    nanpuwiq_game game;
} nanpuwiq_reading;

/* The writer's answer. On a refusal bytes is 0. */
typedef struct {
    uint8_t code;
    size_t bytes;    /* how many bytes of the buffer are filled */
} nanpuwiq_written;

/* The player's answer. */
typedef struct {
    nanpuwiq_position at;
    uint8_t code;
} nanpuwiq_moved;

/* The panel's move by its table: the next input and the next counter. On a refusal both are 0. */
typedef struct {
    nanpuwiq_in_state input;
    size_t counter;
    uint8_t code;
} nanpuwiq_panel_move;

/* The answer to two recordings. */
typedef struct {
    uint8_t code;
    bool agree;      /* whether the outputs are those that the table gives for the inputs; false unless code is 0 */
    bool ended;      /* whether at that step one recording has ended and the other has not; false unless code is 0 */
    size_t step;     /* the first step that shows a fault, a difference or an ending; 0 where they agree and for 1 to 7 and 16 */
} nanpuwiq_compared;

/* The words for the number of a refusal. */
static inline const char *nanpuwiq_words(uint8_t number)
{
    switch (number) {
    case 0:
        return "not refused";
#define NANPUWIQ_WORDS(number, words) \
    case number:                      \
        return words;
#include "nanpuwiq_words.h"
#undef NANPUWIQ_WORDS
    default:
        return "no number of a refusal";
    }
}

/* A set with state s too, s below NANPUWIQ_STATES, and whether s belongs to it. */
static inline nanpuwiq_set nanpuwiq_with(nanpuwiq_set set, size_t s)
{
    if (s < 64)
        set.low |= (uint64_t)1 << s;
    else
        set.high |= (uint64_t)1 << (s - 64);
    return set;
}
static inline bool nanpuwiq_has(nanpuwiq_set set, size_t s)
{
    return s < 64 ? set.low >> s & 1 : set.high >> (s - 64) & 1;
}

/* Set number s of words that hold sets: a row of moves, or of a won map. */
static inline nanpuwiq_set nanpuwiq_set_at(const uint64_t *words, size_t s)
{
    nanpuwiq_set set = {words[2 * s], words[2 * s + 1]};
    return set;
}
static inline void nanpuwiq_put_set(uint64_t *words, size_t s, nanpuwiq_set set)
{
    words[2 * s] = set.low;
    words[2 * s + 1] = set.high;
}

/* Words of scratch that an accepted game asks for, and an accepted kit: a set of two words for 2 * inputs + outputs. On a verdict or a map that many words of scratch are
 * zero, from the first on, and the rest is as it was. */
static inline size_t nanpuwiq_scratch_words(nanpuwiq_game game)
{
    return NANPUWIQ_SET_WORDS * (2 * game.input.states + game.output.states);
}
static inline size_t nanpuwiq_kit_scratch_words(nanpuwiq_kit kit)
{
    return NANPUWIQ_SET_WORDS * (2 * kit.old_drive.modes + kit.new_drive.modes);
}

/* Whether the game is accepted: 0, or 1 to 7. */
uint8_t nanpuwiq_accept(nanpuwiq_game game);

/* The won map: words 2 * i and 2 * i + 1 of map are the set of the outputs that are won with input i; later words stay as they were.
 * A map of n inputs has 2 * n words.
 * A bit is set exactly where a controller with finitely many memory values, started there, makes every reachable round meet all requirements.
 * Code 0, 1 to 7, or 8. On 0 scratch's first nanpuwiq_scratch_words(game) words are zero and the rest is as it was. */
uint8_t nanpuwiq_won_map(nanpuwiq_game game, uint64_t *scratch, size_t scratch_words, uint64_t *map, size_t map_words);

/* The same map, worked out on the joined positions from the last components of the joined graph backward: the solver of the lecture room
 * (docs/LECTURE.md), for graphs of at most NANPUWIQ_JOINED_STATES states. Where both calls answer 0, the words they write are the same.
 * Code 0, 1 to 7, 24, or 8. On 0 scratch's first NANPUWIQ_JOINED_SCRATCH words are zero and the rest is as it was. */
uint8_t nanpuwiq_joined_map(nanpuwiq_game game, uint64_t *scratch, size_t scratch_words, uint64_t *map, size_t map_words);
/* What made the position of an input and an output won or lost: the first ground that fits, with the lowest numbers.
 * What it names holds with won and lost as the won map has them; the grounds 1 to 3 are given exactly where the position is won.
 * Code 0, 1 to 7, 25 a position outside the game, or 8. On 0 scratch's first nanpuwiq_scratch_words(game) words are zero and the rest is as it was. */
nanpuwiq_explained nanpuwiq_explain(nanpuwiq_game game, uint64_t *scratch, size_t scratch_words, nanpuwiq_in_state input, nanpuwiq_out_state output);

/* The same of every position at once; the game is solved once. Entry i * outputs + o of the room grounds tells of input i and output o: it is the ground's
 * number + 16 * what it names, the output's or the input's number or 4 * requirement + set, 0 where it names nothing. nanpuwiq_ground_of reads an entry, as
 * nanpuwiq_explain would have answered. A game has inputs * outputs positions, at most NANPUWIQ_POSITIONS_MOST; later entries stay as they were.
 * Code 0, 1 to 7, or 8: scratch too short, or under an entry a position. On 0 scratch's first nanpuwiq_scratch_words(game) words are zero and the rest is as it
 * was. */
uint8_t nanpuwiq_explain_all(nanpuwiq_game game, uint64_t *scratch, size_t scratch_words, uint16_t *grounds, size_t entries);
static inline nanpuwiq_explained nanpuwiq_ground_of(uint16_t entry)
{
    nanpuwiq_explained told = {0};
    size_t name = entry / 16;
    told.ground = entry % 16;
    switch (told.ground) {
    case NANPUWIQ_AT_HOME:
        told.output.number = name;
        break;
    case NANPUWIQ_UNANSWERED:
    case NANPUWIQ_BY_WAY_OUT:
        told.input.number = name;
        break;
    case NANPUWIQ_UNSERVED:
        told.requirement = name / 4;
        told.set = name % 4;
        break;
    }
    return told;
}

/* The won map and the verdict of a game with bars, interlocks: some outputs are barred while the panel is at certain inputs, and the system may never make a
 * barred pair, at the start or later. Words 2 * i and 2 * i + 1 of bars are the set of the outputs that are barred with input i. A position is marked exactly where it is
 * not barred and won with barred replies excluded. Without a barred pair both are those of nanpuwiq_won_map and nanpuwiq_solve. No table is made, and the right to
 * wait, homes and layouts are not claimed with bars.
 * Code 0, 1 to 7, 29 a barred pair outside the graphs in any word lent, 28 other than one requirement with a barred pair, or 8: under two words an input of bars,
 * under NANPUWIQ_BARRED_SCRATCH words of scratch, or under two words an input of the map. On 0 scratch's first NANPUWIQ_BARRED_SCRATCH words are zero and the rest is
 * as it was. */
uint8_t nanpuwiq_barred_map(nanpuwiq_game game, const uint64_t *bars, size_t bar_words, uint64_t *scratch, size_t scratch_words, uint64_t *map,
                            size_t map_words);
nanpuwiq_judged nanpuwiq_barred_verdict(nanpuwiq_game game, const uint64_t *bars, size_t bar_words, uint64_t *scratch, size_t scratch_words);

/* Whether a controller's table, from anywhere, wins, as nanpuwiq_solve's do; else one thing that shows that it does not, which one is free.
 * The walk fills the front of the room: it begins in a first configuration, and a turn of the table leads from each configuration to the next. Each is
 * written as its place in the order of rows: (output * max(1, G) + counter) * inputs + input, G guarantees in all. The rest of the room is as it was.
 * Code 0, 1 to 7, 19, 20 or 8. */
nanpuwiq_checked nanpuwiq_check(nanpuwiq_game game, const uint16_t *table, size_t entries, uint16_t *room, size_t room_entries);

/* Names the side that wins and fills the front of its buffer with a table that wins for it; no table of any finite size wins for the other.
 * The rest of that buffer and all of the other stay as they were; scratch's first nanpuwiq_scratch_words(game) words are zero and the rest is as it was.
 * An entry is next state + 128 * next counter, or NANPUWIQ_NONE.
 * Controller: inputs + outputs * max(1, G) * inputs entries, G guarantees in all: a start for each input, then rows by output, counter, input.
 * Panel: 1 + inputs * max(1, H) * outputs entries, H assumptions in all: the start, then rows by input, counter, output.
 * Code 0, 1 to 7, 8, 9 or 10. */
nanpuwiq_solved nanpuwiq_solve(nanpuwiq_game game, uint64_t *scratch, size_t scratch_words, uint16_t *controller, size_t controller_entries,
                               uint16_t *panel, size_t panel_entries);

/* The compact layout of a controller's table. A row depends on the new input through its component alone, so there is one row a component: a start for each input,
 * then the rank of each input's component, then rows by output, counter and rank, the last fastest: inputs + inputs + outputs * max(1, G) * components entries.
 * Components rank from 0 by smallest state. The panel's table has one layout.
 *
 * How many components the input graph has. Code 0, or 1 to 7. */
nanpuwiq_counted nanpuwiq_components(nanpuwiq_game game);

/* As nanpuwiq_solve, with the controller's table in the compact layout: it has the rows of nanpuwiq_solve's for every output, counter and input, and wins.
 * Code 0, 1 to 7, 8, 9 (by the compact layout), or 10. */
nanpuwiq_solved nanpuwiq_solve_compact(nanpuwiq_game game, uint64_t *scratch, size_t scratch_words, uint16_t *controller, size_t controller_entries,
                                       uint16_t *panel, size_t panel_entries);

/* Moves a stored table, anyone's, to the other layout: the front of the room becomes the table, the rest stays as it was. Over and back is the same table,
 * and so is back and over. Code 0, 1 to 7, 23, then 21 (to the compact layout) or 22 (from it), then 9 by the layout written. */
nanpuwiq_table_moved nanpuwiq_to_compact(nanpuwiq_game game, const uint16_t *table, size_t entries, uint16_t *room, size_t room_entries);
nanpuwiq_table_moved nanpuwiq_to_full(nanpuwiq_game game, const uint16_t *table, size_t entries, uint16_t *room, size_t room_entries);

/* The entry of a row in the compact layout: the one that the full layout has for this output, counter and new input, where the table's ranks are the game's.
 * NANPUWIQ_NONE where the table has no such row. The start of input i is entry i in both layouts. */
uint16_t nanpuwiq_compact_row(const uint16_t *table, size_t entries, size_t inputs, size_t counters, size_t components, nanpuwiq_out_state output,
                              size_t counter, nanpuwiq_in_state input);

/* Whether the kit is accepted: 0, or 1, 17, 18, 2 to 7. */
uint8_t nanpuwiq_accept_kit(nanpuwiq_kit kit);

/* Names the side that wins the kit's game. The controller's buffer, the panel's and scratch become what nanpuwiq_solve makes of them for that game.
 * Where the system wins, the front of room becomes the kit's table; the rest of room, and all of it where the panel wins, stays as it was.
 * The kit's table: old modes + new modes * max(1, G) * old modes * old commands entries, G guarantees in all. First the controller's start for each
 * old mode, then rows by new mode, counter, old mode, old command, the last fastest: the lowest new command that makes the controller's move
 * + 16 * next counter, or NANPUWIQ_NONE where the old command is barred or the controller's row is none.
 * Every sequence of commands that the old drive allows from an initial mode is answered by commands that the new drive allows; where it never ends,
 * the modes that recur meet every requirement.
 * Code 0, 1, 17, 18, 2 to 7, 8, 9 or 10. */
nanpuwiq_solved nanpuwiq_solve_kit(nanpuwiq_kit kit, uint64_t *scratch, size_t scratch_words, uint16_t *controller, size_t controller_entries,
                                   uint16_t *panel, size_t panel_entries, uint16_t *room, size_t room_entries);

/* The game that the bytes describe. Code 0, 12, 11 (with its place), or 1 to 7. */
nanpuwiq_reading nanpuwiq_read(const uint8_t *text, size_t bytes);

/* Fills the front of the buffer with the game's text, the one that nanpuwiq_read reads as this game where it has at most NANPUWIQ_TEXT_MOST bytes,
 * and refuses with 12 where it has more; the rest stays as it was.
 * Code 0, 1 to 7, or 13. */
nanpuwiq_written nanpuwiq_write(nanpuwiq_game game, uint8_t *buffer, size_t bytes);

/* The first position of a controller's table: `first` with the output and the counter of its start. On a refusal the position is all zero.
 * Code 0, 1 to 7, 16, 14 or 15. */
nanpuwiq_moved nanpuwiq_begin(nanpuwiq_game game, const uint16_t *table, size_t entries, nanpuwiq_in_state first);

/* The position after the next input, with the output and the counter of the table's row. On a refusal the position is the old one.
 * Code 0, 1 to 7, 16, 14 or 15. */
nanpuwiq_moved nanpuwiq_step(nanpuwiq_game game, const uint16_t *table, size_t entries, nanpuwiq_position at, nanpuwiq_in_state next);

/* Moves the position on by the next input, as nanpuwiq_step does; a refusal leaves it as it was. Code 0, 1 to 7, 16, 14 or 15. */
uint8_t nanpuwiq_advance(nanpuwiq_game game, const uint16_t *table, size_t entries, nanpuwiq_position *at, nanpuwiq_in_state next);

/* Playing against a panel's table: the panel picks its first input, the drive's side an initial output, then, again and again, the panel its next
 * input, having seen the output, and the drive's side a next output by a move, having seen that input.
 *
 * The panel's first input and counter, by the table's start. Code 0, 1 to 7, 16 or 15. */
nanpuwiq_panel_move nanpuwiq_panel_first(nanpuwiq_game game, const uint16_t *table, size_t entries);

/* The first position: the start's input and counter with the output picked. On a refusal the position is all zero.
 * Code 0, 1 to 7, 16, 14 (the output is not initial) or 15. */
nanpuwiq_moved nanpuwiq_panel_begin(nanpuwiq_game game, const uint16_t *table, size_t entries, nanpuwiq_out_state first);

/* The panel's next input and counter at a position, by the table's row. Code 0, 1 to 7, 16 or 15. */
nanpuwiq_panel_move nanpuwiq_panel_next(nanpuwiq_game game, const uint16_t *table, size_t entries, nanpuwiq_position at);

/* The position after that move and the output picked. On a refusal the position is the old one.
 * Code 0, 1 to 7, 16, 14 (the output is no move) or 15. */
nanpuwiq_moved nanpuwiq_panel_step(nanpuwiq_game game, const uint16_t *table, size_t entries, nanpuwiq_position at, nanpuwiq_out_state next);

/* Whether of two recordings of one run, the panel's inputs and the drive's outputs, the outputs are those that a controller's table gives for the
 * inputs. Step 0 is the first input with the table's start, every later step the table's row. The first step is told that shows
 *  - a fault, that of nanpuwiq_begin or nanpuwiq_step for the input recorded there: code 14 or 15, agree and ended false;
 *  - a difference, an output recorded that is not the table's: code 0, agree and ended false;
 *  - an ending, one recording there and the other at its end: code 0, agree false, ended true.
 * A fault goes before a difference or an ending at its step; where an output is recorded and no input any more it is an ending, whatever the table has.
 * Recordings that end together with none of these agree, two empty ones too: code 0, agree true, ended false.
 * Code 0, 1 to 7, 16, or 14 or 15 with its step. */
nanpuwiq_compared nanpuwiq_compare(nanpuwiq_game game, const uint16_t *table, size_t entries, nanpuwiq_in_recording inputs,
                                   nanpuwiq_out_recording outputs);

#ifdef __cplusplus
}
#endif

#endif
