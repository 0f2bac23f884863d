/* How deep the stack of each entry goes: each is called in a thread whose stack was filled with one byte before, and what has another byte afterwards was
 * used. What a thread with an empty function uses is taken off. Prints a line for each entry: its name and so many bytes. */
#include "nanpuwiq.h"
#include <pthread.h>
#include <stdio.h>
#include <stdlib.h>
#include <string.h>

enum { STACK = 1 << 21, PAINT = 0xa5 };

static nanpuwiq_game game;
static nanpuwiq_kit kit;
static uint64_t scratch[NANPUWIQ_BARRED_SCRATCH], map[NANPUWIQ_SET_WORDS * NANPUWIQ_STATES], bars[NANPUWIQ_SET_WORDS * NANPUWIQ_STATES];
static uint16_t controller[NANPUWIQ_TABLE_MOST], panel[NANPUWIQ_TABLE_MOST], other[NANPUWIQ_COMPACT_MOST], kit_room[NANPUWIQ_KIT_MOST];
static uint16_t walk[NANPUWIQ_WALK_ROOM], grounds[NANPUWIQ_POSITIONS_MOST];
static uint8_t text[1 << 18];
static size_t text_bytes, compact_entries;
static nanpuwiq_solved solved;
static const nanpuwiq_in_state first_input = {0};
static const nanpuwiq_out_state first_output = {0};
static nanpuwiq_position at;
static volatile uint64_t kept; /* so that no call is left out */

static size_t words(const void *buffer, size_t size) { (void)buffer; return size / sizeof(uint64_t); }
static size_t entries(const void *buffer, size_t size) { (void)buffer; return size / sizeof(uint16_t); }
#define WORDS(buffer) buffer, words(buffer, sizeof buffer)
#define ENTRIES(buffer) buffer, entries(buffer, sizeof buffer)

static void nothing(void) {}
static void accept_(void) { kept = nanpuwiq_accept(game); }
static void won_map(void) { kept = nanpuwiq_won_map(game, WORDS(scratch), WORDS(map)); }
static void joined_map(void) { kept = nanpuwiq_joined_map(game, WORDS(scratch), WORDS(map)); }
static void barred_map(void) { kept = nanpuwiq_barred_map(game, WORDS(bars), WORDS(scratch), WORDS(map)); }
static void barred_verdict(void) { kept = nanpuwiq_barred_verdict(game, WORDS(bars), WORDS(scratch)).code; }
static void explain(void) { kept = nanpuwiq_explain(game, WORDS(scratch), first_input, first_output).code; }
static void explain_all(void) { kept = nanpuwiq_explain_all(game, WORDS(scratch), ENTRIES(grounds)); }
static void check(void) { kept = nanpuwiq_check(game, controller, solved.entries, ENTRIES(walk)).code; }
static void solve(void) { kept = nanpuwiq_solve(game, WORDS(scratch), ENTRIES(other), ENTRIES(panel)).code; }
static void solve_compact(void) { kept = nanpuwiq_solve_compact(game, WORDS(scratch), ENTRIES(other), ENTRIES(panel)).code; }
static void components(void) { kept = nanpuwiq_components(game).code; }
static void to_compact(void) { kept = nanpuwiq_to_compact(game, controller, solved.entries, ENTRIES(other)).code; }
static void to_full(void) { kept = nanpuwiq_to_full(game, other, compact_entries, ENTRIES(panel)).code; }
static void compact_row(void) { kept = nanpuwiq_compact_row(ENTRIES(other), game.input.states, 1, 1, first_output, 0, first_input); }
static void accept_kit(void) { kept = nanpuwiq_accept_kit(kit); }
static void solve_kit(void) { kept = nanpuwiq_solve_kit(kit, WORDS(scratch), ENTRIES(other), ENTRIES(panel), ENTRIES(kit_room)).code; }
static void read_(void) { kept = nanpuwiq_read(text, text_bytes).code; }
static void write_(void) { kept = nanpuwiq_write(game, text, sizeof text).code; }
static void begin(void) { kept = nanpuwiq_begin(game, controller, solved.entries, first_input).code; }
static void step(void) { kept = nanpuwiq_step(game, controller, solved.entries, at, first_input).code; }
static void advance(void) { kept = nanpuwiq_advance(game, controller, solved.entries, &at, first_input); }
static void panel_first(void) { kept = nanpuwiq_panel_first(game, panel, solved.entries).code; }
static void panel_begin(void) { kept = nanpuwiq_panel_begin(game, panel, solved.entries, first_output).code; }
static void panel_next(void) { kept = nanpuwiq_panel_next(game, panel, solved.entries, at).code; }
static void panel_step(void) { kept = nanpuwiq_panel_step(game, panel, solved.entries, at, first_output).code; }
static void compare(void)
{
    static const uint8_t inputs[2] = {0, 0};
    static const uint8_t outputs[2] = {0, 0};
    nanpuwiq_in_recording recorded = {inputs, 2};
    nanpuwiq_out_recording answered = {outputs, 2};
    kept = nanpuwiq_compare(game, controller, solved.entries, recorded, answered).code;
}

static const struct entry { const char *name; void (*call)(void); } ENTRY[] = {
    {"nanpuwiq_accept", accept_}, {"nanpuwiq_won_map", won_map}, {"nanpuwiq_joined_map", joined_map}, {"nanpuwiq_barred_map", barred_map},
    {"nanpuwiq_barred_verdict", barred_verdict}, {"nanpuwiq_explain", explain}, {"nanpuwiq_explain_all", explain_all}, {"nanpuwiq_check", check},
    {"nanpuwiq_solve", solve}, {"nanpuwiq_solve_compact", solve_compact}, {"nanpuwiq_components", components}, {"nanpuwiq_to_compact", to_compact},
    {"nanpuwiq_to_full", to_full}, {"nanpuwiq_compact_row", compact_row}, {"nanpuwiq_accept_kit", accept_kit}, {"nanpuwiq_solve_kit", solve_kit},
    {"nanpuwiq_read", read_}, {"nanpuwiq_write", write_}, {"nanpuwiq_begin", begin}, {"nanpuwiq_step", step}, {"nanpuwiq_advance", advance},
    {"nanpuwiq_panel_first", panel_first}, {"nanpuwiq_panel_begin", panel_begin}, {"nanpuwiq_panel_next", panel_next},
    {"nanpuwiq_panel_step", panel_step}, {"nanpuwiq_compare", compare},
};
enum { MANY = sizeof ENTRY / sizeof *ENTRY };

static void *run(void *call)
{
    (*(void (**)(void))call)();
    return NULL;
}

/* So many bytes of a thread's stack does the call use. */
static size_t depth(void (*call)(void))
{
    static uint8_t *stack;
    pthread_t thread;
    pthread_attr_t attributes;
    if (stack == NULL && posix_memalign((void **)&stack, 4096, STACK) != 0) exit(3);
    memset(stack, PAINT, STACK);
    if (pthread_attr_init(&attributes) != 0 || pthread_attr_setstack(&attributes, stack, STACK) != 0) exit(3);
    if (pthread_create(&thread, &attributes, run, &call) != 0 || pthread_join(thread, NULL) != 0) exit(3);
    pthread_attr_destroy(&attributes);
    size_t untouched = 0;
    while (untouched < STACK && stack[untouched] == PAINT) untouched++;
    return STACK - untouched;
}

/* Graphs of n states, each of which moves to the next and, where they are dense, to every state; every second set is there. */
static void make(size_t n, bool dense, size_t k, bool barred)
{
    memset(&game, 0, sizeof game);
    memset(bars, 0, sizeof bars);
    nanpuwiq_graph *graphs[2] = {&game.input, &game.output};
    for (int side = 0; side < 2; side++) {
        graphs[side]->states = n;
        graphs[side]->initial = nanpuwiq_with(graphs[side]->initial, 0);
        for (size_t s = 0; s < n; s++) {
            nanpuwiq_set row = {0, 0};
            row = nanpuwiq_with(row, s);
            for (size_t t = 0; t < n; t++)
                if (dense || t == (s + 1) % n || t % 7 == s % 5) row = nanpuwiq_with(row, t);
            nanpuwiq_put_set(graphs[side]->moves, s, row);
        }
    }
    game.k = k;
    for (size_t r = 0; r < k; r++) {
        nanpuwiq_requirement *q = &game.requirements[r];
        q->assumed = q->guaranteed = NANPUWIQ_SETS;
        for (size_t j = 0; j < NANPUWIQ_SETS; j++)
            for (size_t s = (r + j) % 2; s < n; s += 2) {
                q->assumptions[j].states = nanpuwiq_with(q->assumptions[j].states, s);
                q->guarantees[j].states = nanpuwiq_with(q->guarantees[j].states, s);
            }
    }
    if (barred) nanpuwiq_put_set(bars, 0, nanpuwiq_with((nanpuwiq_set){0, 0}, n - 1));
    memset(&kit, 0, sizeof kit);
    kit.k = game.k;
    memcpy(kit.requirements, game.requirements, sizeof kit.requirements);
    nanpuwiq_drive *drives[2] = {&kit.old_drive, &kit.new_drive};
    for (int side = 0; side < 2; side++) {
        drives[side]->modes = n;
        drives[side]->initial = graphs[side]->initial;
        drives[side]->commands = 2;
        memset(drives[side]->next, NANPUWIQ_BARRED, sizeof drives[side]->next);
        for (size_t s = 0; s < n; s++) {
            drives[side]->next[s * NANPUWIQ_COMMANDS] = (uint8_t)s;
            drives[side]->next[s * NANPUWIQ_COMMANDS + 1] = (uint8_t)((s + 1) % n);
        }
    }
    solved = nanpuwiq_solve(game, WORDS(scratch), ENTRIES(controller), ENTRIES(panel));
    compact_entries = nanpuwiq_solve_compact(game, WORDS(scratch), ENTRIES(other), ENTRIES(panel)).entries;
    nanpuwiq_written written = nanpuwiq_write(game, text, sizeof text);
    text_bytes = written.bytes;
    memset(&at, 0, sizeof at);
}

int main(void)
{
    static const struct { size_t n, k; bool dense, barred; } GAMES[] = {
        {1, 0, true, false}, {2, 1, false, true}, {8, 4, false, false}, {32, 1, true, true}, {32, 8, false, false}, {64, 1, false, true}, {64, 8, true, false},
        {128, 1, false, true}, {128, 8, true, false},
    };
    static size_t most[MANY];
    size_t empty = depth(nothing);
    for (size_t g = 0; g < sizeof GAMES / sizeof *GAMES; g++) {
        make(GAMES[g].n, GAMES[g].dense, GAMES[g].k, GAMES[g].barred);
        for (size_t e = 0; e < MANY; e++) {
            size_t used = depth(ENTRY[e].call);
            used = used > empty ? used - empty : 0;
            if (used > most[e]) most[e] = used;
        }
    }
    for (size_t e = 0; e < MANY; e++) printf("%s %zu\n", ENTRY[e].name, most[e]);
    return 0;
}
