/* Every entry called from C, with the example game and with a kit of two pump drives and recordings of both. From the root, after `tools/prove nanpuwiq`:
 *     gcc -Wall -Wextra -Werror -O2 -Iinclude tests/c_calls.c target/staticlib/libnanpuwiq.a -o target/c_calls && target/c_calls
 * Prints 'N passed, M failed'; exits 1 on a failure. */
#include "nanpuwiq.h"

#include <stdio.h>
#include <string.h>

static int passed, failed;

static void same(const char *what, unsigned long got, unsigned long wanted)
{
    if (got == wanted) {
        passed++;
    } else {
        failed++;
        printf("%s: %lu, not %lu\n", what, got, wanted);
    }
}

static const char text[] = "(game 2 2 1)\n(in 0 1 (0 1))\n(in 1 0 (0 1))\n(out 0 1 (0 1))\n(out 1 0 (0 1))\n(if ((1)) ((1)))\n";
static const size_t text_bytes = sizeof text - 1;
static const uint16_t table[6] = {0, NANPUWIQ_NONE, 1, 1, 1, 1};

/* The set of states below 64 whose bits are set. */
static nanpuwiq_set low(uint64_t states)
{
    nanpuwiq_set set = {states, 0};
    return set;
}

static nanpuwiq_game example(void)
{
    nanpuwiq_game g;
    memset(&g, 0, sizeof g);
    g.input.states = g.output.states = 2;
    g.input.initial = g.output.initial = low(1);
    g.input.moves[0] = g.input.moves[2] = g.output.moves[0] = g.output.moves[2] = 3;
    g.k = 1;
    g.requirements[0].assumptions[0].states = low(2);
    g.requirements[0].assumed = 1;
    g.requirements[0].guarantees[0].states = low(2);
    g.requirements[0].guaranteed = 1;
    return g;
}

static void acceptance(void)
{
    nanpuwiq_game g = example();
    same("accept", nanpuwiq_accept(g), 0);
    g.input.states = 65;
    same("65 states", nanpuwiq_accept(g), 0);
    g.input.states = 128;
    same("128 states", nanpuwiq_accept(g), 0);
    g.input.states = 129;
    same("129 states", nanpuwiq_accept(g), 1);
    g = example();
    g.requirements[7].guaranteed = 5;
    same("five sets in the last place", nanpuwiq_accept(g), 6);
    g = example();
    g.input.moves[2] = g.output.moves[2] = 0;
    same("drives that latch", nanpuwiq_accept(g), 0);
}

static void map(void)
{
    nanpuwiq_game g = example();
    uint64_t scratch[13], words[5] = {7, 7, 7, 7, 7};
    memset(scratch, 255, sizeof scratch);
    same("scratch of 2 inputs and 2 outputs", nanpuwiq_scratch_words(g), 12);
    same("map, scratch short", nanpuwiq_won_map(g, scratch, 11, words, 5), 8);
    same("map, map short", nanpuwiq_won_map(g, scratch, 12, words, 3), 8);
    same("map refused: word 0", words[0], 7);
    same("map refused: scratch", scratch[0], UINT64_MAX);
    same("map", nanpuwiq_won_map(g, scratch, 13, words, 5), 0);
    same("map: word 0", words[0], 3);
    same("map: word 1", words[1], 0);
    same("map: word 2", words[2], 3);
    same("map: word 3", words[3], 0);
    same("map: word 4", words[4], 7);
    same("map: scratch 0", scratch[0], 0);
    same("map: scratch 11", scratch[11], 0);
    same("map: scratch 12", scratch[12], UINT64_MAX);
    same("map, scratch of the exact length", nanpuwiq_won_map(g, scratch, 12, words, 4), 0);
}

static void map_of_the_joined_positions(void)
{
    nanpuwiq_game g = example();
    static uint64_t scratch[NANPUWIQ_JOINED_SCRATCH + 1];
    uint64_t words[5] = {7, 7, 7, 7, 7};
    memset(scratch, 255, sizeof scratch);
    same("joined map, scratch short", nanpuwiq_joined_map(g, scratch, NANPUWIQ_JOINED_SCRATCH - 1, words, 5), 8);
    same("joined map, map short", nanpuwiq_joined_map(g, scratch, NANPUWIQ_JOINED_SCRATCH, words, 3), 8);
    g.output.states = NANPUWIQ_JOINED_STATES + 1;
    same("joined map, 33 outputs, scratch short", nanpuwiq_joined_map(g, scratch, 0, words, 5), 24);
    g.input.initial = low(0);
    same("joined map, 33 outputs, no initial input", nanpuwiq_joined_map(g, scratch, 0, words, 5), 3);
    same("joined map refused: word 0", words[0], 7);
    same("joined map refused: scratch", scratch[0], UINT64_MAX);
    same("joined map", nanpuwiq_joined_map(example(), scratch, NANPUWIQ_JOINED_SCRATCH + 1, words, 5), 0);
    same("joined map: word 0", words[0], 3);
    same("joined map: word 1", words[1], 0);
    same("joined map: word 2", words[2], 3);
    same("joined map: word 3", words[3], 0);
    same("joined map: word 4", words[4], 7);
    same("joined map: scratch 0", scratch[0], 0);
    same("joined map: the last word", scratch[NANPUWIQ_JOINED_SCRATCH - 1], 0);
    same("joined map: the word after it", scratch[NANPUWIQ_JOINED_SCRATCH], UINT64_MAX);
}

/* Output 1 is barred with input 0: the system goes to it with input 1, where the requirement asks for it. */
static void bars_beside_a_game(void)
{
    nanpuwiq_game g = example(), none = example(), wrong = example();
    static uint64_t scratch[NANPUWIQ_BARRED_SCRATCH + 1];
    const size_t long_enough = NANPUWIQ_BARRED_SCRATCH;
    const uint64_t bars[4] = {2, 0, 0, 0}, open[4] = {0, 0, 0, 0}, outside[4] = {0, 1, 0, 0}, past[5] = {0, 0, 0, 0, 1}, all[4] = {3, 0, 0, 0};
    uint64_t words[5] = {7, 7, 7, 7, 7};
    memset(&none.requirements, 0, sizeof none.requirements);
    none.k = 0;
    wrong.k = 9;
    memset(scratch, 255, sizeof scratch);
    same("barred map, 9 requirements", nanpuwiq_barred_map(wrong, outside, 4, scratch, 0, words, 0), 5);
    same("barred map, a pair outside, k = 0", nanpuwiq_barred_map(none, outside, 2, scratch, 0, words, 0), 29);
    same("barred map, half a set past the inputs", nanpuwiq_barred_map(g, past, 5, scratch, 0, words, 0), 29);
    same("barred map, k = 0", nanpuwiq_barred_map(none, bars, 1, scratch, 0, words, 0), 28);
    same("barred map, bars short", nanpuwiq_barred_map(g, bars, 3, scratch, long_enough, words, 5), 8);
    same("barred map, scratch short", nanpuwiq_barred_map(g, bars, 4, scratch, long_enough - 1, words, 5), 8);
    same("barred map, map short", nanpuwiq_barred_map(g, bars, 4, scratch, long_enough, words, 3), 8);
    same("barred map refused: word 0", words[0], 7);
    same("barred verdict, 9 requirements", nanpuwiq_barred_verdict(wrong, outside, 4, scratch, 0).code, 5);
    same("barred verdict, a pair outside, k = 0", nanpuwiq_barred_verdict(none, outside, 2, scratch, 0).code, 29);
    same("barred verdict, k = 0", nanpuwiq_barred_verdict(none, bars, 1, scratch, 0).code, 28);
    same("barred verdict, bars short", nanpuwiq_barred_verdict(g, bars, 3, scratch, long_enough).code, 8);
    same("barred verdict, scratch short", nanpuwiq_barred_verdict(g, bars, 4, scratch, long_enough - 1).code, 8);
    same("bars refused: scratch", scratch[0], UINT64_MAX);
    same("barred map", nanpuwiq_barred_map(g, bars, 4, scratch, long_enough + 1, words, 5), 0);
    same("barred map: word 0", words[0], 1);
    same("barred map: word 1", words[1], 0);
    same("barred map: word 2", words[2], 3);
    same("barred map: word 3", words[3], 0);
    same("barred map: word 4", words[4], 7);
    same("barred map: scratch 0", scratch[0], 0);
    same("barred map: the last word", scratch[long_enough - 1], 0);
    same("barred map: the word after it", scratch[long_enough], UINT64_MAX);
    memset(scratch, 255, sizeof scratch);
    nanpuwiq_judged judged = nanpuwiq_barred_verdict(g, bars, 4, scratch, long_enough + 1);
    same("barred verdict", judged.code, 0);
    same("barred verdict: system", judged.system, true);
    same("barred verdict: the last word", scratch[long_enough - 1], 0);
    same("barred verdict: the word after it", scratch[long_enough], UINT64_MAX);
    judged = nanpuwiq_barred_verdict(g, all, 4, scratch, long_enough);
    same("all barred with the initial input", judged.code, 0);
    same("all barred with the initial input: system", judged.system, false);
    same("no bar, k = 0", nanpuwiq_barred_map(none, open, 4, scratch, long_enough, words, 4), 0);
    same("no bar, k = 0: word 0", words[0], 3);
    same("no bar, k = 0: word 2", words[2], 3);
    same("no bar, k = 0: verdict", nanpuwiq_barred_verdict(none, open, 4, scratch, long_enough).system, true);
}

static void solving(void)
{
    nanpuwiq_game g = example();
    uint64_t scratch[12];
    uint16_t controller[7], panel[6];
    memset(scratch, 255, sizeof scratch);
    memset(controller, 1, sizeof controller);
    memset(panel, 2, sizeof panel);
    same("solve, scratch short", nanpuwiq_solve(g, scratch, 11, controller, 7, panel, 6).code, 8);
    same("solve, controller short", nanpuwiq_solve(g, scratch, 12, controller, 5, panel, 6).code, 9);
    same("solve, panel short", nanpuwiq_solve(g, scratch, 12, controller, 6, panel, 4).code, 10);
    same("solve refused: controller", controller[0], 257);
    same("solve refused: panel", panel[0], 514);
    same("solve refused: scratch", scratch[0], UINT64_MAX);
    nanpuwiq_solved r = nanpuwiq_solve(g, scratch, 12, controller, 7, panel, 6);
    same("solve", r.code, 0);
    same("solve: system", r.system, true);
    same("solve: entries", r.entries, 6);
    same("solve: table", memcmp(controller, table, sizeof table), 0);
    same("solve: entry 6", controller[6], 257);
    same("solve: panel", panel[0], 514);
    same("solve: scratch 0", scratch[0], 0);
    same("solve: scratch 11", scratch[11], 0);
    g.requirements[0].guarantees[0].states = low(0);
    r = nanpuwiq_solve(g, scratch, 12, controller, 7, panel, 6);
    same("no adapter", r.code, 0);
    same("no adapter: system", r.system, false);
    same("no adapter: entries", r.entries, 5);
    same("no adapter: start", panel[0], 0);
    same("no adapter: row 0 0 0", panel[1], 1);
    same("no adapter: entry 5", panel[5], 514);
    same("no adapter: controller", memcmp(controller, table, sizeof table), 0);
}

/* The compact layout of the example's table: both inputs are of one component, so there are 2 starts, 2 ranks and a row for each output. */
static const uint16_t compact_table[6] = {0, NANPUWIQ_NONE, 0, 0, 1, 1};

static void compact_solving(void)
{
    nanpuwiq_game g = example();
    uint64_t scratch[12];
    uint16_t controller[7], panel[6];
    memset(scratch, 255, sizeof scratch);
    memset(controller, 1, sizeof controller);
    memset(panel, 2, sizeof panel);
    same("components", nanpuwiq_components(g).count, 1);
    same("compact solve, scratch short", nanpuwiq_solve_compact(g, scratch, 11, controller, 7, panel, 6).code, 8);
    same("compact solve, controller short", nanpuwiq_solve_compact(g, scratch, 12, controller, 5, panel, 6).code, 9);
    same("compact solve, panel short", nanpuwiq_solve_compact(g, scratch, 12, controller, 6, panel, 4).code, 10);
    same("compact solve refused: controller", controller[0], 257);
    same("compact solve refused: panel", panel[0], 514);
    same("compact solve refused: scratch", scratch[0], UINT64_MAX);
    nanpuwiq_solved r = nanpuwiq_solve_compact(g, scratch, 12, controller, 7, panel, 6);
    same("compact solve", r.code, 0);
    same("compact solve: system", r.system, true);
    same("compact solve: entries", r.entries, 6);
    same("compact solve: table", memcmp(controller, compact_table, sizeof compact_table), 0);
    same("compact solve: entry 6", controller[6], 257);
    same("compact solve: panel", panel[0], 514);
    same("compact solve: scratch 0", scratch[0], 0);
    same("compact solve: scratch 11", scratch[11], 0);
    g.input.states = 129;
    same("components, refused", nanpuwiq_components(g).code, 1);
    same("compact solve, refused", nanpuwiq_solve_compact(g, scratch, 12, controller, 7, panel, 6).code, 1);
}

static void table_moved(const char *what, nanpuwiq_table_moved got, uint8_t code, size_t entries)
{
    same(what, got.code, code);
    same(what, got.entries, entries);
}

static void moving_tables(void)
{
    nanpuwiq_game g = example();
    uint16_t room[7] = {7, 7, 7, 7, 7, 7, 7}, differing[6], misranked[6];
    const uint16_t untouched[7] = {7, 7, 7, 7, 7, 7, 7};
    memcpy(differing, table, sizeof table);
    differing[5] = 0;
    memcpy(misranked, compact_table, sizeof compact_table);
    misranked[3] = 1;
    table_moved("over, length", nanpuwiq_to_compact(g, differing, 5, room, 0), 23, 0);
    table_moved("over, rows", nanpuwiq_to_compact(g, differing, 6, room, 0), 21, 0);
    table_moved("over, room", nanpuwiq_to_compact(g, table, 6, room, 5), 9, 0);
    table_moved("back, length", nanpuwiq_to_full(g, misranked, 5, room, 0), 23, 0);
    table_moved("back, ranks", nanpuwiq_to_full(g, misranked, 6, room, 0), 22, 0);
    table_moved("back, room", nanpuwiq_to_full(g, compact_table, 6, room, 5), 9, 0);
    same("moves refused: room", memcmp(room, untouched, sizeof room), 0);
    table_moved("over", nanpuwiq_to_compact(g, table, 6, room, 7), 0, 6);
    same("over: table", memcmp(room, compact_table, sizeof compact_table), 0);
    same("over: entry 6", room[6], 7);
    table_moved("back", nanpuwiq_to_full(g, compact_table, 6, room, 7), 0, 6);
    same("back: table", memcmp(room, table, sizeof table), 0);
    same("back: entry 6", room[6], 7);
    for (size_t o = 0; o < 2; o++)
        for (size_t j = 0; j < 2; j++) {
            nanpuwiq_out_state output = {o};
            nanpuwiq_in_state input = {j};
            same("row in place", nanpuwiq_compact_row(compact_table, 6, 2, 1, 1, output, 0, input), table[2 + 2 * o + j]);
            same("no such counter", nanpuwiq_compact_row(compact_table, 6, 2, 1, 1, output, 1, input), NANPUWIQ_NONE);
            same("no such rank", nanpuwiq_compact_row(compact_table, 6, 2, 1, 0, output, 0, input), NANPUWIQ_NONE);
        }
    g.k = 9;
    table_moved("over, refused", nanpuwiq_to_compact(g, table, 6, room, 7), 5, 0);
    table_moved("back, refused", nanpuwiq_to_full(g, compact_table, 6, room, 7), 5, 0);
}

/* 128 states each ask for 768 words: one word less gets 8, that many pass and are zero afterwards, and no word past them is. */
static void scratch_of_the_largest(void)
{
    static uint16_t controller[128 + 128 * 128], panel[1 + 128 * 128];
    nanpuwiq_game g;
    uint64_t scratch[NANPUWIQ_SCRATCH_MOST + 1], map[NANPUWIQ_SET_WORDS * 128];
    memset(&g, 0, sizeof g);
    g.input.states = g.output.states = 128;
    g.input.initial = g.output.initial = low(1);
    for (size_t s = 0; s < 128; s++) {
        nanpuwiq_put_set(g.input.moves, s, nanpuwiq_with(low(0), (s + 1) % 128));
        nanpuwiq_put_set(g.output.moves, s, nanpuwiq_with(low(0), (s + 1) % 128));
    }
    same("128 states: words", nanpuwiq_scratch_words(g), NANPUWIQ_SCRATCH_MOST);
    memset(scratch, 255, sizeof scratch);
    same("128 states: 767 words", nanpuwiq_solve(g, scratch, 767, controller, 128 + 128 * 128, panel, 1 + 128 * 128).code, 8);
    same("128 states, map: 767 words", nanpuwiq_won_map(g, scratch, 767, map, NANPUWIQ_SET_WORDS * 128), 8);
    same("128 states: 768 words", nanpuwiq_solve(g, scratch, 768, controller, 128 + 128 * 128, panel, 1 + 128 * 128).code, 0);
    same("128 states: the last word", scratch[767], 0);
    same("128 states: the word after it", scratch[768], UINT64_MAX);
    memset(scratch, 255, sizeof scratch);
    same("128 states, map: 768 words", nanpuwiq_won_map(g, scratch, 768, map, NANPUWIQ_SET_WORDS * 128), 0);
    same("128 states, map: the last word", scratch[767], 0);
    same("128 states, map: the word after it", scratch[768], UINT64_MAX);
}

static void explained(const char *what, nanpuwiq_explained got, nanpuwiq_explained wanted)
{
    same(what, got.code, wanted.code);
    same(what, got.ground, wanted.ground);
    same(what, got.output.number, wanted.output.number);
    same(what, got.input.number, wanted.input.number);
    same(what, got.requirement, wanted.requirement);
    same(what, got.set, wanted.set);
}

/* Inputs 0 stuck; 1 to 0 and 2; 2 to itself; 3 to 2 and 3. Outputs 0 to itself; 1 stuck; 2 to 0; 3 to itself; 4 to 1 and 3. If {3} then {0}; if {2} then
 * {0, 3} and {0}. */
static nanpuwiq_game eight(void)
{
    nanpuwiq_game g = {0};
    const uint64_t in[] = {0, 5, 4, 12}, out[] = {1, 0, 1, 8, 10};
    g.input.states = 4;
    g.input.initial = low(1);
    for (size_t s = 0; s < 4; s++)
        nanpuwiq_put_set(g.input.moves, s, low(in[s]));
    g.output.states = 5;
    g.output.initial = low(1);
    for (size_t s = 0; s < 5; s++)
        nanpuwiq_put_set(g.output.moves, s, low(out[s]));
    g.k = 2;
    g.requirements[0].assumptions[0].states = low(8);
    g.requirements[0].assumed = 1;
    g.requirements[0].guarantees[0].states = low(1);
    g.requirements[0].guaranteed = 1;
    g.requirements[1].assumptions[0].states = low(4);
    g.requirements[1].assumed = 1;
    g.requirements[1].guarantees[0].states = low(9);
    g.requirements[1].guarantees[1].states = low(1);
    g.requirements[1].guaranteed = 2;
    return g;
}

static nanpuwiq_explained explain(nanpuwiq_game g, uint64_t *scratch, size_t words, size_t i, size_t o)
{
    return nanpuwiq_explain(g, scratch, words, (nanpuwiq_in_state){i}, (nanpuwiq_out_state){o});
}

static void checked(const char *what, nanpuwiq_checked got, uint8_t code, uint8_t finding, size_t input, size_t walk, size_t begins, size_t requirement)
{
    same(what, got.code, code);
    same(what, got.finding, finding);
    same(what, got.input.number, input);
    same(what, got.walk, walk);
    same(what, got.begins, begins);
    same(what, got.requirement, requirement);
}

/* The flush story: the table that an earlier solver passed goes to economy, 1, and stays there. */
static void checking(void)
{
    static uint16_t room[NANPUWIQ_WALK_ROOM + 1];
    uint16_t table[] = {0, NANPUWIQ_NONE, 1, 1, 1, 1, NANPUWIQ_NONE, NANPUWIQ_NONE};
    nanpuwiq_game g = {.input = {2, low(1), {3, 0, 1, 0}}, .output = {3, low(1), {6, 0, 2, 0, 1, 0}}, .k = 1};
    g.requirements[0] = (nanpuwiq_requirement){.assumptions = {{low(2)}}, .assumed = 1, .guarantees = {{low(4)}}, .guaranteed = 1};
    for (size_t k = 0; k <= NANPUWIQ_WALK_ROOM; k++) room[k] = 7;
    checked("check, table short", nanpuwiq_check(g, table, 7, room, 0), 19, 0, 0, 0, 0, 0);
    checked("check, room short", nanpuwiq_check(g, table, 8, room, NANPUWIQ_WALK_ROOM - 1), 8, 0, 0, 0, 0, 0);
    nanpuwiq_game none = g;
    none.output.initial = low(0);
    checked("check, no initial output", nanpuwiq_check(none, table, 7, room, 0), 3, 0, 0, 0, 0, 0);
    same("check refused: entry 0", room[0], 7);
    table[0] = 1;
    checked("a bad start", nanpuwiq_check(g, table, 8, room, NANPUWIQ_WALK_ROOM), 0, NANPUWIQ_BAD_START, 0, 0, 0, 0);
    same("a bad start: entry 0", room[0], 7);
    table[0] = 0;
    nanpuwiq_checked found = nanpuwiq_check(g, table, 8, room, NANPUWIQ_WALK_ROOM + 1);
    checked("a bad round", found, 0, NANPUWIQ_BAD_ROUND, 0, found.walk, found.begins, 0);
    same("a bad round: its first configuration", room[0], 0);
    same("a bad round: it closes", room[found.walk - 1], room[found.begins]);
    same("a bad round: one turn at least", found.begins + 1 < found.walk, 1);
    for (size_t k = found.begins; k < found.walk; k++) same("a bad round: economy", room[k] / 2, 1);
    same("a bad round: the entry after it", room[found.walk], 7);
    table[4] = 2;
    found = nanpuwiq_check(g, table, 8, room, NANPUWIQ_WALK_ROOM + 1);
    checked("a bad row", found, 0, NANPUWIQ_BAD_ROW, 0, found.walk, 0, 0);
    same("a bad row: economy", room[found.walk - 1] / 2, 1);
    uint64_t scratch[NANPUWIQ_SCRATCH_MOST];
    uint16_t panel[32];
    same("flush is won", nanpuwiq_solve(g, scratch, NANPUWIQ_SCRATCH_MOST, table, 8, panel, 32).system, 1);
    room[0] = 7;
    checked("ours", nanpuwiq_check(g, table, 8, room, NANPUWIQ_WALK_ROOM), 0, NANPUWIQ_WINS, 0, 0, 0, 0);
    same("ours: entry 0", room[0], 7);
    nanpuwiq_game large = {.input = {64, low(1), {0}}, .output = {64, low(1), {0}}, .k = 1};
    for (size_t k = 0; k < 64; k++) large.input.moves[2 * k] = large.output.moves[2 * k] = 1;
    large.requirements[0] = (nanpuwiq_requirement){.guarantees = {{low(1)}, {low(1)}}, .guaranteed = 2};
    static uint16_t entries[64 + 64 * 64 * 2];
    checked("check, 8,192 places", nanpuwiq_check(large, entries, 64 + 64 * 64 * 2, room, 0), 20, 0, 0, 0, 0, 0);
    large.requirements[0].guaranteed = 1;
    large.requirements[0].guarantees[1].states = low(0);
    checked("check, 4,096 places", nanpuwiq_check(large, entries, 64 + 64 * 64, room, NANPUWIQ_WALK_ROOM), 0, NANPUWIQ_WINS, 0, 0, 0, 0);
}

static void explaining(void)
{
    nanpuwiq_game g = eight();
    uint64_t scratch[27];
    memset(scratch, 255, sizeof scratch);
    explained("explain, outside", explain(g, scratch, 0, 4, 0), (nanpuwiq_explained){.code = 25});
    explained("explain, scratch short", explain(g, scratch, 25, 0, 0), (nanpuwiq_explained){.code = 8});
    same("explain refused: scratch", scratch[0], UINT64_MAX);
    explained("input stuck", explain(g, scratch, 27, 0, 1), (nanpuwiq_explained){.ground = NANPUWIQ_INPUT_STUCK});
    same("explain: the last word", scratch[25], 0);
    same("explain: the word after it", scratch[26], UINT64_MAX);
    explained("by replies", explain(g, scratch, 27, 1, 2), (nanpuwiq_explained){.ground = NANPUWIQ_BY_REPLIES});
    explained("at home", explain(g, scratch, 27, 2, 2), (nanpuwiq_explained){.ground = NANPUWIQ_AT_HOME});
    explained("output stuck", explain(g, scratch, 27, 3, 1), (nanpuwiq_explained){.ground = NANPUWIQ_OUTPUT_STUCK});
    explained("unanswered", explain(g, scratch, 27, 1, 4), (nanpuwiq_explained){.ground = NANPUWIQ_UNANSWERED, .input = {2}});
    explained("by a way out", explain(g, scratch, 27, 3, 3), (nanpuwiq_explained){.ground = NANPUWIQ_BY_WAY_OUT, .input = {2}});
    explained("unserved", explain(g, scratch, 27, 2, 3), (nanpuwiq_explained){.ground = NANPUWIQ_UNSERVED, .requirement = 1, .set = 1});
    explained("pushed on", explain(g, scratch, 27, 2, 4), (nanpuwiq_explained){.ground = NANPUWIQ_PUSHED_ON});
    g.output.initial = low(0);
    explained("explain, no initial output", explain(g, scratch, 27, 4, 0), (nanpuwiq_explained){.code = 3});
    /* a home that is not output 0: both graphs stay, at input 0 and at output 1 */
    nanpuwiq_game home = {.input = {1, low(1), {1, 0}}, .output = {2, low(1), {2, 0, 2, 0}}};
    explained("at home 1", explain(home, scratch, 27, 0, 0), (nanpuwiq_explained){.ground = NANPUWIQ_AT_HOME, .output = {1}});
}

static void explaining_all(void)
{
    nanpuwiq_game g = eight();
    uint64_t scratch[27];
    uint16_t grounds[21];
    memset(scratch, 255, sizeof scratch);
    memset(grounds, 255, sizeof grounds);
    same("explain all, scratch short", nanpuwiq_explain_all(g, scratch, 25, grounds, 21), 8);
    same("explain all, room short", nanpuwiq_explain_all(g, scratch, 27, grounds, 19), 8);
    nanpuwiq_game none = g;
    none.output.initial = low(0);
    same("explain all, no initial output", nanpuwiq_explain_all(none, scratch, 0, grounds, 0), 3);
    same("explain all refused: scratch", scratch[0], UINT64_MAX);
    same("explain all refused: the room", grounds[0], UINT16_MAX);
    same("explain all", nanpuwiq_explain_all(g, scratch, 27, grounds, 21), 0);
    same("explain all: the last word", scratch[25], 0);
    same("explain all: the word after it", scratch[26], UINT64_MAX);
    same("explain all: the entry after the last", grounds[20], UINT16_MAX);
    same("explain all: a way out", grounds[3 * 5 + 3], 6 + 16 * 2);
    same("explain all: unserved", grounds[2 * 5 + 3], 7 + 16 * (1 * 4 + 1));
    for (size_t i = 0; i < 4; i++)
        for (size_t o = 0; o < 5; o++)
            explained("explain all, as explain", nanpuwiq_ground_of(grounds[i * 5 + o]), explain(g, scratch, 27, i, o));
    nanpuwiq_game home = {.input = {1, low(1), {1, 0}}, .output = {2, low(1), {2, 0, 2, 0}}};
    same("explain all, exact lengths", nanpuwiq_explain_all(home, scratch, 8, grounds, 2), 0);
    same("explain all: home 1", grounds[0], 3 + 16 * 1);
}

static void texts(void)
{
    nanpuwiq_game g = example();
    nanpuwiq_reading r = nanpuwiq_read((const uint8_t *)text, text_bytes);
    same("read", r.code, 0);
    same("read: place", r.place, 0);
    same("read: game", memcmp(&r.game, &g, sizeof g), 0);
    r = nanpuwiq_read((const uint8_t *)text, 20);
    same("a front", r.code, 11);
    same("a front: place", r.place, 20);
    same("a front: game", r.game.input.states, 0);
    r = nanpuwiq_read((const uint8_t *)"(game 1 1 0)\n(in 0 0 (0))\n(out 0 1 (0))\n", 40);
    same("no initial input", r.code, 3);
    uint8_t buffer[120];
    memset(buffer, 9, sizeof buffer);
    same("write, buffer short", nanpuwiq_write(g, buffer, text_bytes - 1).code, 13);
    same("write refused: byte 0", buffer[0], 9);
    nanpuwiq_written w = nanpuwiq_write(g, buffer, sizeof buffer);
    same("write", w.code, 0);
    same("write: bytes", w.bytes, text_bytes);
    same("write: text", memcmp(buffer, text, text_bytes), 0);
    same("write: the byte after", buffer[text_bytes], 9);
}

static void playing(void)
{
    nanpuwiq_game g = example();
    nanpuwiq_in_state zero = {0}, one = {1}, two = {2};
    same("begin, table short", nanpuwiq_begin(g, table, 5, zero).code, 16);
    same("begin, not initial", nanpuwiq_begin(g, table, 6, one).code, 14);
    nanpuwiq_moved m = nanpuwiq_begin(g, table, 6, zero);
    same("begin", m.code, 0);
    same("begin: input", m.at.input.number, 0);
    same("begin: output", m.at.output.number, 0);
    same("begin: counter", m.at.counter, 0);
    m = nanpuwiq_step(g, table, 6, m.at, one);
    same("step", m.code, 0);
    same("step: input", m.at.input.number, 1);
    same("step: output", m.at.output.number, 1);
    same("step: counter", m.at.counter, 0);
    m = nanpuwiq_step(g, table, 6, m.at, two);
    same("step, no move", m.code, 14);
    same("step refused: input", m.at.input.number, 1);
    same("step refused: output", m.at.output.number, 1);
    uint16_t none[6] = {0, NANPUWIQ_NONE, 1, 1, NANPUWIQ_NONE, 1};
    m = nanpuwiq_step(g, none, 6, m.at, zero);
    same("step, row of none", m.code, 15);
    m.at.counter = 1;
    m = nanpuwiq_step(g, table, 6, m.at, zero);
    same("step, no such position", m.code, 16);
    same("step refused: counter", m.at.counter, 1);
}

static void same_position(const char *what, nanpuwiq_position got, size_t input, size_t output, size_t counter)
{
    same(what, got.input.number, input);
    same(what, got.output.number, output);
    same(what, got.counter, counter);
}

static void advancing(void)
{
    nanpuwiq_game g = example();
    nanpuwiq_in_state zero = {0}, one = {1}, two = {2};
    nanpuwiq_position at = nanpuwiq_begin(g, table, 6, zero).at;
    same("advance", nanpuwiq_advance(g, table, 6, &at, one), 0);
    same_position("advance: position", at, 1, 1, 0);
    same("advance, table short", nanpuwiq_advance(g, table, 5, &at, zero), 16);
    same_position("advance refused 16: position", at, 1, 1, 0);
    same("advance, no move", nanpuwiq_advance(g, table, 6, &at, two), 14);
    same_position("advance refused 14: position", at, 1, 1, 0);
    uint16_t none[6] = {0, NANPUWIQ_NONE, 1, 1, NANPUWIQ_NONE, 1};
    same("advance, row of none", nanpuwiq_advance(g, none, 6, &at, zero), 15);
    same_position("advance refused 15: position", at, 1, 1, 0);
    at.counter = 1;
    same("advance, no such position", nanpuwiq_advance(g, table, 6, &at, zero), 16);
    same_position("advance refused, no such position: position", at, 1, 1, 1);
    at.counter = 0;
    g.input.states = 129;
    same("advance, 129 states", nanpuwiq_advance(g, table, 6, &at, zero), 1);
    same_position("advance refused 1: position", at, 1, 1, 0);
}

/* A won game with three guarantees, played for 10,000 inputs, of which one in four is no state: the lent position goes where the step by value says. */
static void long_run(void)
{
    nanpuwiq_game g;
    memset(&g, 0, sizeof g);
    g.input.states = g.output.states = 3;
    g.input.initial = low(7);
    g.output.initial = low(1);
    for (size_t s = 0; s < 3; s++)
        g.input.moves[2 * s] = g.output.moves[2 * s] = 7;
    g.k = 2;
    g.requirements[0].assumptions[0].states = low(2);
    g.requirements[0].guarantees[0].states = low(2);
    g.requirements[0].guarantees[1].states = low(4);
    g.requirements[0].assumed = 1;
    g.requirements[0].guaranteed = 2;
    g.requirements[1].assumptions[0].states = low(4);
    g.requirements[1].guarantees[0].states = low(1);
    g.requirements[1].assumed = g.requirements[1].guaranteed = 1;
    uint64_t scratch[NANPUWIQ_SCRATCH_MOST];
    uint16_t controller[30], panel[19];
    nanpuwiq_solved won = nanpuwiq_solve(g, scratch, NANPUWIQ_SCRATCH_MOST, controller, 30, panel, 19);
    same("long run: solve", won.code, 0);
    same("long run: system", won.system, true);
    nanpuwiq_in_state next = {0};
    nanpuwiq_moved other = nanpuwiq_begin(g, controller, won.entries, next);
    nanpuwiq_position at = other.at;
    same("long run: begin", other.code, 0);
    uint64_t seed = 1;
    int codes = 0, apart = 0, moved = 0;
    for (int k = 0; k < 10000; k++) {
        seed = seed * 6364136223846793005u + 1442695040888963407u;
        next.number = seed >> 62;
        uint8_t code = nanpuwiq_advance(g, controller, won.entries, &at, next);
        other = nanpuwiq_step(g, controller, won.entries, other.at, next);
        codes += code != (next.number < 3 ? 0 : 14);
        apart += code != other.code || at.input.number != other.at.input.number || at.output.number != other.at.output.number
            || at.counter != other.at.counter;
        moved += code == 0;
    }
    same("long run: other codes than 0 for an input and 14 for none", codes, 0);
    same("long run: positions that are not the step's", apart, 0);
    same("long run: moves", moved > 7000 && moved < 8000, true);
}

/* A drive with initial mode 0; rows has what each command does in each mode. */
static nanpuwiq_drive drive(size_t modes, size_t commands, const uint8_t *rows)
{
    nanpuwiq_drive d;
    d.modes = modes;
    d.initial = low(1);
    d.commands = commands;
    memset(d.next, NANPUWIQ_BARRED, sizeof d.next);
    for (size_t m = 0; m < modes; m++)
        memcpy(d.next + 16 * m, rows + commands * m, commands);
    return d;
}

static void require(nanpuwiq_kit *kit, uint64_t assumed, uint64_t guaranteed)
{
    nanpuwiq_requirement *q = &kit->requirements[kit->k++];
    q->assumptions[q->assumed++].states = low(assumed);
    q->guarantees[q->guaranteed++].states = low(guaranteed);
}

/* Old modes: stop, low, high, service; commands: off, slow, fast, service. New modes: stop, ramp, low, high, flush, park; commands: hold, halt, up,
 * down, flush, park. Low, high and stop with a flush are to be found again and again where they are asked for again and again. Service is never left,
 * nor is park: the new drive is to go there then, and not before. */
static nanpuwiq_kit pump(void)
{
    static const uint8_t old_rows[4][4] = {{0, 1, 255, 3}, {0, 1, 2, 255}, {255, 1, 2, 255}, {255, 255, 255, 3}};
    static const uint8_t new_rows[6][6] = {{0, 0, 1, 255, 4, 5}, {255, 0, 2, 255, 255, 5}, {2, 0, 3, 2, 255, 5}, {3, 255, 255, 2, 255, 255},
                                           {4, 0, 255, 255, 4, 255}, {5, 5, 255, 255, 255, 5}};
    nanpuwiq_kit kit;
    memset(&kit, 0, sizeof kit);
    kit.old_drive = drive(4, 4, old_rows[0]);
    kit.new_drive = drive(6, 6, new_rows[0]);
    require(&kit, 1 << 1, 1 << 2);
    require(&kit, 1 << 2, 1 << 3);
    require(&kit, 1 << 0, 1 << 0);
    kit.requirements[2].guarantees[1].states = low(1 << 4);
    kit.requirements[2].guaranteed = 2;
    require(&kit, 1 << 3, 1 << 5);
    return kit;
}

enum {
    IN = 4,
    OUT = 6,
    COUNTERS = 5,
    SCRATCH = NANPUWIQ_SET_WORDS * (2 * IN + OUT),
    CONTROLLER = IN + OUT * COUNTERS * IN,
    PANEL = 1 + IN * 4 * OUT,
    KIT = IN + OUT * COUNTERS * IN * 4
};

static nanpuwiq_graph graph_of(const nanpuwiq_drive *d)
{
    nanpuwiq_graph g;
    memset(&g, 0, sizeof g);
    g.states = d->modes;
    g.initial = d->initial;
    for (size_t m = 0; m < d->modes; m++)
        for (size_t u = 0; u < d->commands; u++)
            if (d->next[16 * m + u] != NANPUWIQ_BARRED)
                nanpuwiq_put_set(g.moves, m, nanpuwiq_with(nanpuwiq_set_at(g.moves, m), d->next[16 * m + u]));
    return g;
}

static nanpuwiq_game game_of(const nanpuwiq_kit *kit)
{
    nanpuwiq_game g;
    g.input = graph_of(&kit->old_drive);
    g.output = graph_of(&kit->new_drive);
    g.k = kit->k;
    memcpy(g.requirements, kit->requirements, sizeof g.requirements);
    return g;
}

typedef struct {
    uint64_t scratch[SCRATCH + 8];
    uint16_t controller[CONTROLLER + 5], panel[PANEL + 5], room[KIT + 5];
} rooms;

static const uint16_t untouched = 0x5a5a;

static void clear(rooms *r)
{
    memset(r, 0x5a, sizeof *r);
}

/* How many of the entries from..to are not as they were. */
static int touched(const uint16_t *entries, size_t from, size_t to)
{
    int n = 0;
    for (size_t k = from; k < to; k++)
        n += entries[k] != untouched;
    return n;
}

/* How many entries of the kit's table are not what its definition makes of the controller's. */
static int wrong_entries(const nanpuwiq_kit *kit, const uint16_t *controller, const uint16_t *room)
{
    const nanpuwiq_drive *of = &kit->old_drive, *to = &kit->new_drive;
    int wrong = 0;
    const uint16_t *entry = room;
    for (size_t i = 0; i < of->modes; i++)
        wrong += *entry++ != controller[i];
    for (size_t o = 0; o < to->modes; o++)
        for (size_t c = 0; c < COUNTERS; c++)
            for (size_t i = 0; i < of->modes; i++)
                for (size_t u = 0; u < of->commands; u++) {
                    uint8_t next = of->next[16 * i + u];
                    unsigned wanted = NANPUWIQ_NONE;
                    if (next != NANPUWIQ_BARRED && controller[of->modes + (o * COUNTERS + c) * of->modes + next] != NANPUWIQ_NONE) {
                        unsigned row = controller[of->modes + (o * COUNTERS + c) * of->modes + next], command = 0;
                        while (command < to->commands && to->next[16 * o + command] != row % 128)
                            command++;
                        wanted = command + 16 * (row / 128);
                    }
                    wrong += *entry++ != wanted;
                }
    return wrong + (entry != room + KIT);
}

static void kit_solving(void)
{
    nanpuwiq_kit kit = pump();
    nanpuwiq_game g = game_of(&kit);
    rooms r, by_game;
    clear(&r);
    clear(&by_game);
    same("kit: accept", nanpuwiq_accept_kit(kit), 0);
    same("kit: words of scratch", nanpuwiq_kit_scratch_words(kit), SCRATCH);
    same("kit: words of scratch, its game", nanpuwiq_scratch_words(g), SCRATCH);
    nanpuwiq_solved game_won = nanpuwiq_solve(g, by_game.scratch, SCRATCH + 8, by_game.controller, CONTROLLER + 5, by_game.panel, PANEL + 5);
    same("kit: its game", game_won.code, 0);
    same("kit: its game: system", game_won.system, true);
    same("kit: its game: entries", game_won.entries, CONTROLLER);
    nanpuwiq_solved won = nanpuwiq_solve_kit(kit, r.scratch, SCRATCH + 8, r.controller, CONTROLLER + 5, r.panel, PANEL + 5, r.room, KIT + 5);
    same("kit: solve", won.code, 0);
    same("kit: system", won.system, true);
    same("kit: entries", won.entries, KIT);
    same("kit: entries that are not as defined", wrong_entries(&kit, r.controller, r.room), 0);
    same("kit: entries after the table", touched(r.room, KIT, KIT + 5), 0);
    same("kit: controller", memcmp(r.controller, by_game.controller, sizeof r.controller), 0);
    same("kit: panel", touched(r.panel, 0, PANEL + 5), 0);
    same("kit: scratch", memcmp(r.scratch, by_game.scratch, sizeof r.scratch), 0);
    same("kit: the last word of scratch that is cleared", r.scratch[SCRATCH - 1], 0);
    same("kit: the word after it", r.scratch[SCRATCH], 0x5a5a5a5a5a5a5a5au);
    /* from stop, fast is barred; in park all is lost but service, in which hold is the lowest command that stays there */
    same("kit: barred", r.room[IN + 2], NANPUWIQ_NONE);
    same("kit: off in park", r.room[IN + 5 * COUNTERS * IN * 4], NANPUWIQ_NONE);
    same("kit: service in park", r.room[IN + 5 * COUNTERS * IN * 4 + 3] % 16, 0);
    int none = 0;
    for (size_t k = 0; k < KIT; k++)
        none += r.room[k] == NANPUWIQ_NONE;
    same("kit: some entries are none, some are not", none > 0 && none < KIT, true);
    /* rooms of the exact length */
    clear(&r);
    won = nanpuwiq_solve_kit(kit, r.scratch, SCRATCH, r.controller, CONTROLLER, r.panel, PANEL, r.room, KIT);
    same("kit, exact rooms", won.code, 0);
    same("kit, exact rooms: system", won.system, true);
    same("kit, exact rooms: wrong entries", wrong_entries(&kit, r.controller, r.room), 0);
}

/* 500 commands that the old drive allows, service among the last of them, each answered from the kit's table; the new drive goes where the controller's table says. */
static void kit_playing(void)
{
    nanpuwiq_kit kit = pump();
    nanpuwiq_game g = game_of(&kit);
    rooms r;
    clear(&r);
    nanpuwiq_solved won = nanpuwiq_solve_kit(kit, r.scratch, SCRATCH, r.controller, CONTROLLER, r.panel, PANEL, r.room, KIT);
    same("kit run: solve", won.code, 0);
    size_t in = 0, out = r.room[in] % 128, counter = r.room[in] / 128;
    nanpuwiq_in_state next = {in};
    nanpuwiq_moved m = nanpuwiq_begin(g, r.controller, CONTROLLER, next);
    same("kit run: begin", m.code, 0);
    same_position("kit run: start", m.at, in, out, counter);
    uint64_t seed = 1, been_in = 0, been_out = 0;
    int turns = 0, barred = 0, unanswered = 0, not_allowed = 0, apart = 0;
    while (turns < 500) {
        seed = seed * 6364136223846793005u + 1442695040888963407u;
        size_t u = (seed >> 33) % (turns < 450 ? 3 : 4);
        if (kit.old_drive.next[16 * in + u] == NANPUWIQ_BARRED) {
            barred++;
            continue;
        }
        turns++;
        uint16_t entry = r.room[IN + ((out * COUNTERS + counter) * IN + in) * kit.old_drive.commands + u];
        if (entry == NANPUWIQ_NONE) {
            unanswered++;
            break;
        }
        if (entry % 16 >= kit.new_drive.commands || kit.new_drive.next[16 * out + entry % 16] == NANPUWIQ_BARRED || entry / 16 >= COUNTERS) {
            not_allowed++;
            break;
        }
        in = kit.old_drive.next[16 * in + u];
        out = kit.new_drive.next[16 * out + entry % 16];
        counter = entry / 16;
        next.number = in;
        m = nanpuwiq_step(g, r.controller, CONTROLLER, m.at, next);
        apart += m.code != 0 || m.at.input.number != in || m.at.output.number != out || m.at.counter != counter;
        been_in |= (uint64_t)1 << in;
        been_out |= (uint64_t)1 << out;
    }
    same("kit run: turns", turns, 500);
    same("kit run: commands without an answer", unanswered, 0);
    same("kit run: answers that are not allowed", not_allowed, 0);
    same("kit run: modes that are not the controller's", apart, 0);
    same("kit run: some commands are barred", barred > 50, true);
    same("kit run: old modes", been_in, 15);
    same("kit run: new modes", been_out, 63);
    same("kit run: in service at last", in, 3);
    same("kit run: in park at last", out, 5);
}

static void kit_no_adapter(void)
{
    nanpuwiq_kit kit = pump();
    kit.requirements[0].guarantees[0].states = low(1 << 5);
    nanpuwiq_game g = game_of(&kit);
    rooms r, by_game;
    clear(&r);
    clear(&by_game);
    nanpuwiq_solve(g, by_game.scratch, SCRATCH + 8, by_game.controller, CONTROLLER + 5, by_game.panel, PANEL + 5);
    nanpuwiq_solved won = nanpuwiq_solve_kit(kit, r.scratch, SCRATCH + 8, r.controller, CONTROLLER + 5, r.panel, PANEL + 5, r.room, KIT + 5);
    same("kit, no adapter", won.code, 0);
    same("kit, no adapter: system", won.system, false);
    same("kit, no adapter: entries", won.entries, PANEL);
    same("kit, no adapter: room", touched(r.room, 0, KIT + 5), 0);
    same("kit, no adapter: controller", touched(r.controller, 0, CONTROLLER + 5), 0);
    same("kit, no adapter: panel", memcmp(r.panel, by_game.panel, sizeof r.panel), 0);
    same("kit, no adapter: panel's table", touched(r.panel, 0, PANEL), PANEL);
    same("kit, no adapter: entries after it", touched(r.panel, PANEL, PANEL + 5), 0);
    same("kit, no adapter: the last word of scratch that is cleared", r.scratch[SCRATCH - 1], 0);
    same("kit, no adapter: the word after it", r.scratch[SCRATCH], 0x5a5a5a5a5a5a5a5au);
    /* the kit's room is tried whoever wins */
    won = nanpuwiq_solve_kit(kit, r.scratch, SCRATCH, r.controller, CONTROLLER, r.panel, PANEL, r.room, KIT - 1);
    same("kit, no adapter, room short", won.code, 9);
}

/* The pump, parked, takes no command any more. Where the old drive goes on in service, park would have to recur: no adapter exists, and at every counter the
 * panel's row for park is the lowest move. Where the old drive latches in service too, all that it allows is answered, and neither latched mode has a row. */
static void kit_latches(void)
{
    nanpuwiq_kit kit = pump();
    rooms r;
    clear(&r);
    memset(kit.new_drive.next + 16 * 5, NANPUWIQ_BARRED, 16);
    same("kit latches: accept", nanpuwiq_accept_kit(kit), 0);
    nanpuwiq_solved won = nanpuwiq_solve_kit(kit, r.scratch, SCRATCH, r.controller, CONTROLLER, r.panel, PANEL, r.room, KIT);
    same("kit latches: solve", won.code, 0);
    same("kit latches: system", won.system, false);
    same("kit latches: entries", won.entries, PANEL);
    same("kit latches: room", touched(r.room, 0, KIT + 5), 0);
    static const unsigned lowest[IN] = {0, 0, 1, 3};
    int wrong = 0;
    for (size_t i = 0; i < IN; i++)
        for (size_t h = 0; h < 4; h++)
            wrong += r.panel[1 + (i * 4 + h) * OUT + 5] != lowest[i] + 128 * h;
    same("kit latches: rows for park", wrong, 0);
    memset(kit.old_drive.next + 16 * 3, NANPUWIQ_BARRED, 16);
    clear(&r);
    won = nanpuwiq_solve_kit(kit, r.scratch, SCRATCH, r.controller, CONTROLLER, r.panel, PANEL, r.room, KIT);
    same("kit latches, the old drive too: solve", won.code, 0);
    same("kit latches, the old drive too: system", won.system, true);
    same("kit latches, the old drive too: entries", won.entries, KIT);
    same("kit latches, the old drive too: wrong entries", wrong_entries(&kit, r.controller, r.room), 0);
    wrong = 0;
    for (size_t row = 0; row < OUT * COUNTERS * IN; row++)
        for (size_t u = 0; u < 4; u++)
            wrong += (row % IN == 3 || row / IN / COUNTERS == 5) && r.room[IN + row * 4 + u] != NANPUWIQ_NONE;
    same("kit latches, the old drive too: rows in a latched mode", wrong, 0);
    /* nothing comes after service, so that the lowest move will do: hold */
    same("kit latches, the old drive too: service in stop", r.room[IN + 3], 0);
}

/* The kit is refused with this number, and every room stays as it was. */
static void refused(const char *what, nanpuwiq_kit kit, size_t words, size_t controller, size_t panel, size_t room, uint8_t number)
{
    rooms before, after;
    clear(&before);
    clear(&after);
    nanpuwiq_solved r = nanpuwiq_solve_kit(kit, after.scratch, words, after.controller, controller, after.panel, panel, after.room, room);
    same(what, r.code, number);
    same(what, r.system, false);
    same(what, r.entries, 0);
    same(what, memcmp(&after, &before, sizeof after), 0);
    same(what, nanpuwiq_accept_kit(kit), number >= 8 && number <= 10 ? 0 : number);
}

static void faulty(const char *what, nanpuwiq_kit kit, uint8_t number)
{
    refused(what, kit, SCRATCH, CONTROLLER, PANEL, KIT, number);
}

static void kit_refusals(void)
{
    nanpuwiq_kit right = pump(), kit = right;
    kit.old_drive.modes = 0;
    faulty("kit, no modes", kit, 1);
    kit = right, kit.new_drive.modes = 129;
    faulty("kit, 129 modes", kit, 1);
    kit = right, kit.new_drive.commands = 0;
    faulty("kit, no commands", kit, 17);
    kit = right, kit.old_drive.commands = 17;
    faulty("kit, 17 commands", kit, 17);
    kit = right, kit.old_drive.next[16 * 2 + 0] = 4;
    faulty("kit, an entry that is no mode", kit, 18);
    kit = right, kit.new_drive.next[16 * 5 + 4] = 254;
    faulty("kit, an entry of 254", kit, 18);
    kit = right, kit.old_drive.next[16 * 0 + 4] = 0;
    faulty("kit, an entry past the commands", kit, 18);
    kit = right, kit.new_drive.next[16 * 63 + 15] = 0;
    faulty("kit, an entry past the modes", kit, 18);
    kit = right, kit.old_drive.initial = low(1 | 1 << 4);
    faulty("kit, an initial mode past the count", kit, 2);
    kit = right, kit.new_drive.initial = low(0);
    faulty("kit, no initial mode", kit, 3);
    kit = right, kit.k = 9;
    faulty("kit, nine requirements", kit, 5);
    kit = right, kit.requirements[7].guaranteed = 5;
    faulty("kit, five sets in the last place", kit, 6);
    kit = right, kit.requirements[0].guarantees[0].states = low(1 << 6);
    faulty("kit, a set with a mode past the count", kit, 7);
    refused("kit, scratch short", right, SCRATCH - 1, CONTROLLER, PANEL, KIT, 8);
    refused("kit, controller's room short", right, SCRATCH, CONTROLLER - 1, PANEL, KIT, 9);
    refused("kit, kit's room short", right, SCRATCH, CONTROLLER, PANEL, KIT - 1, 9);
    refused("kit, panel's room short", right, SCRATCH, CONTROLLER, PANEL - 1, KIT, 10);
    refused("kit, no rooms", right, 0, 0, 0, 0, 8);
}

/* A kit with every fault, mended one by one; that a mode has no command left is none. */
static void kit_refusals_in_order(void)
{
    nanpuwiq_kit right = pump(), kit = right;
    kit.new_drive.modes = 129;
    kit.old_drive.commands = 17;
    kit.old_drive.next[16 * 2 + 0] = 4;
    kit.new_drive.next[16 * 63 + 15] = 0;
    kit.old_drive.initial = low(1 | 1 << 4);
    kit.new_drive.initial = low(0);
    memset(kit.new_drive.next + 16 * 5, NANPUWIQ_BARRED, 16);
    kit.k = 9;
    kit.requirements[7].guaranteed = 5;
    kit.requirements[0].guarantees[0].states = low(1 << 6);
    refused("kit in order: 1", kit, SCRATCH - 1, CONTROLLER - 1, PANEL - 1, KIT - 1, 1);
    kit.new_drive.modes = 6;
    refused("kit in order: 17", kit, SCRATCH - 1, CONTROLLER - 1, PANEL - 1, KIT - 1, 17);
    kit.old_drive.commands = 4;
    refused("kit in order: 18", kit, SCRATCH - 1, CONTROLLER - 1, PANEL - 1, KIT - 1, 18);
    kit.old_drive.next[16 * 2 + 0] = NANPUWIQ_BARRED;
    refused("kit in order: 18, past the counts", kit, SCRATCH - 1, CONTROLLER - 1, PANEL - 1, KIT - 1, 18);
    kit.new_drive.next[16 * 63 + 15] = NANPUWIQ_BARRED;
    refused("kit in order: 2", kit, SCRATCH - 1, CONTROLLER - 1, PANEL - 1, KIT - 1, 2);
    kit.old_drive.initial = low(1);
    refused("kit in order: 3", kit, SCRATCH - 1, CONTROLLER - 1, PANEL - 1, KIT - 1, 3);
    kit.new_drive.initial = low(1);
    refused("kit in order: 5", kit, SCRATCH - 1, CONTROLLER - 1, PANEL - 1, KIT - 1, 5);
    kit.k = 4;
    refused("kit in order: 6", kit, SCRATCH - 1, CONTROLLER - 1, PANEL - 1, KIT - 1, 6);
    kit.requirements[7].guaranteed = 0;
    refused("kit in order: 7", kit, SCRATCH - 1, CONTROLLER - 1, PANEL - 1, KIT - 1, 7);
    kit.requirements[0].guarantees[0].states = low(1 << 2);
    refused("kit in order: 8", kit, SCRATCH - 1, CONTROLLER - 1, PANEL - 1, KIT - 1, 8);
    refused("kit in order: 9", kit, SCRATCH, CONTROLLER - 1, PANEL - 1, KIT - 1, 9);
    refused("kit in order: 9, the kit's", kit, SCRATCH, CONTROLLER, PANEL - 1, KIT - 1, 9);
    refused("kit in order: 10", kit, SCRATCH, CONTROLLER, PANEL - 1, KIT, 10);
    memcpy(kit.new_drive.next, right.new_drive.next, sizeof kit.new_drive.next);
    same("kit in order: mended", memcmp(&kit, &right, sizeof kit), 0);
}

static nanpuwiq_in_recording inputs(const uint8_t *states, size_t steps)
{
    nanpuwiq_in_recording recording = {states, steps};
    return recording;
}

static nanpuwiq_out_recording outputs(const uint8_t *states, size_t steps)
{
    nanpuwiq_out_recording recording = {states, steps};
    return recording;
}

#ifdef EXCHANGED
/* No compiler may take this: the drive's recording for the panel's. */
nanpuwiq_compared exchanged(nanpuwiq_game g, nanpuwiq_in_recording panels, nanpuwiq_out_recording drives)
{
    return nanpuwiq_compare(g, table, 6, drives, panels);
}
#endif

/* What is told of two recordings, in all four fields. */
static void compared(const char *what, nanpuwiq_compared got, uint8_t code, bool agree, bool ended, size_t step)
{
    same(what, got.code, code);
    same(what, got.agree, agree);
    same(what, got.ended, ended);
    same(what, got.step, step);
}

static void agrees(const char *what, nanpuwiq_compared got)
{
    compared(what, got, 0, true, false, 0);
}

static void differs(const char *what, nanpuwiq_compared got, size_t step)
{
    compared(what, got, 0, false, false, step);
}

static void ends(const char *what, nanpuwiq_compared got, size_t step)
{
    compared(what, got, 0, false, true, step);
}

static void fault(const char *what, nanpuwiq_compared got, uint8_t number, size_t step)
{
    compared(what, got, number, false, false, step);
}

/* The example's run: from 0 the table answers 0, then always 1. */
static const uint8_t ins[6] = {0, 1, 0, 0, 1, 1}, outs[6] = {0, 1, 1, 1, 1, 1};

static void recordings(void)
{
    nanpuwiq_game g = example();
    for (size_t n = 0; n <= 6; n++)
        agrees("recordings, a front of the run", nanpuwiq_compare(g, table, 6, inputs(ins, n), outputs(outs, n)));
    for (size_t n = 0; n <= 6; n++)
        for (size_t m = 0; m <= 6; m++)
            if (n != m)
                ends("recordings, fronts of two lengths", nanpuwiq_compare(g, table, 6, inputs(ins, n), outputs(outs, m)), n < m ? n : m);
    static const uint8_t no_states[] = {2, 63, 64, 65, 127, 128, 129, 192, 255};
    uint8_t in[6], out[6];
    for (size_t n = 0; n < 6; n++) {
        memcpy(out, outs, 6);
        out[n] = !outs[n];
        differs("recordings, another output", nanpuwiq_compare(g, table, 6, inputs(ins, 6), outputs(out, 6)), n);
        differs("recordings, another output at the end", nanpuwiq_compare(g, table, 6, inputs(ins, n + 1), outputs(out, n + 1)), n);
        for (size_t k = 0; k < sizeof no_states; k++) {
            out[n] = no_states[k];
            differs("recordings, an output that is none", nanpuwiq_compare(g, table, 6, inputs(ins, 6), outputs(out, 6)), n);
        }
        memcpy(in, ins, 6);
        for (size_t k = 0; k < sizeof no_states; k++) {
            in[n] = no_states[k];
            fault("recordings, an input that is none", nanpuwiq_compare(g, table, 6, inputs(in, 6), outputs(outs, 6)), 14, n);
            fault("recordings, an input that is none, at the end", nanpuwiq_compare(g, table, 6, inputs(in, n + 1), outputs(outs, n + 1)), 14, n);
        }
    }
    /* input 1 is not initial */
    fault("recordings, not initial", nanpuwiq_compare(g, table, 6, inputs(ins + 1, 5), outputs(outs + 1, 5)), 14, 0);
}

/* Tables with one entry that is none, has a counter out of range, or an output that is no move. */
static void recordings_with_faulty_tables(void)
{
    nanpuwiq_game g = example();
    static const uint16_t starts[] = {NANPUWIQ_NONE, 128, 1, 2, 127, 32768}, rows[] = {NANPUWIQ_NONE, 128, 129, 2, 127, 32769};
    uint16_t other[6];
    for (size_t k = 0; k < 6; k++) {
        memcpy(other, table, sizeof other);
        other[0] = starts[k];
        fault("recordings, start", nanpuwiq_compare(g, other, 6, inputs(ins, 6), outputs(outs, 6)), 15, 0);
        agrees("recordings, start, both empty", nanpuwiq_compare(g, other, 6, inputs(ins, 0), outputs(outs, 0)));
        /* entries 2 and 3 are the rows of output 0 for the inputs 0 and 1, 4 and 5 those of output 1: step 1 has entry 3, step 2 entry 4, step 4 entry 5 */
        static const size_t entries[] = {3, 4, 5}, steps[] = {1, 2, 4};
        for (size_t n = 0; n < 3; n++) {
            memcpy(other, table, sizeof other);
            other[entries[n]] = rows[k];
            fault("recordings, row", nanpuwiq_compare(g, other, 6, inputs(ins, 6), outputs(outs, 6)), 15, steps[n]);
            agrees("recordings, row, both end before it", nanpuwiq_compare(g, other, 6, inputs(ins, steps[n]), outputs(outs, steps[n])));
        }
        /* entries that the run has no use of */
        memcpy(other, table, sizeof other);
        other[1] = other[2] = rows[k];
        agrees("recordings, other entries", nanpuwiq_compare(g, other, 6, inputs(ins, 6), outputs(outs, 6)));
    }
    /* a row in order, but another one: then the drive's outputs are the other ones */
    memcpy(other, table, sizeof other);
    other[4] = 0;
    differs("recordings, another row", nanpuwiq_compare(g, other, 6, inputs(ins, 6), outputs(outs, 6)), 2);
}

/* A fault goes before a difference or an ending at its step, 14 before 15, and what a step shows before what a later one does. */
static void recordings_in_order(void)
{
    nanpuwiq_game g = example();
    static const size_t entries[] = {0, 3, 4, 4, 5, 5};
    for (size_t n = 0; n < 6; n++) {
        uint8_t in[6], out[6];
        uint16_t other[6];
        memcpy(in, ins, 6);
        memcpy(out, outs, 6);
        memcpy(other, table, sizeof other);
        in[n] = 255;
        out[n] = 255;
        fault("recordings in order: 14, then a difference", nanpuwiq_compare(g, table, 6, inputs(in, 6), outputs(out, 6)), 14, n);
        fault("recordings in order: 14, then an ending", nanpuwiq_compare(g, table, 6, inputs(in, 6), outputs(outs, n)), 14, n);
        ends("recordings in order: both end, but for an output", nanpuwiq_compare(g, table, 6, inputs(in, n), outputs(out, n + 1)), n);
        if (n != 3 && n != 5) { /* there the entry is that of the step before */
            other[entries[n]] = NANPUWIQ_NONE;
            fault("recordings in order: 15, then a difference", nanpuwiq_compare(g, other, 6, inputs(ins, 6), outputs(out, 6)), 15, n);
            fault("recordings in order: 15, then an ending", nanpuwiq_compare(g, other, 6, inputs(ins, 6), outputs(outs, n)), 15, n);
            ends("recordings in order: no input, so no 15", nanpuwiq_compare(g, other, 6, inputs(ins, n), outputs(outs, 6)), n);
        }
        if (n < 5) {
            memcpy(out, outs, 6);
            out[n] = 255;
            in[n] = ins[n];
            in[n + 1] = 255;
            differs("recordings in order: a difference, then 14", nanpuwiq_compare(g, table, 6, inputs(in, 6), outputs(out, 6)), n);
            differs("recordings in order: a difference, then an ending", nanpuwiq_compare(g, table, 6, inputs(ins, 6), outputs(out, n + 1)), n);
            differs("recordings in order: a difference, then another ending", nanpuwiq_compare(g, table, 6, inputs(ins, n + 1), outputs(out, 6)), n);
            out[n] = outs[n];
            out[n + 1] = 255;
            in[n] = 255;
            fault("recordings in order: 14, then more", nanpuwiq_compare(g, table, 6, inputs(in, 6), outputs(out, 6)), 14, n);
        }
    }
    /* input 1 is not initial, and its start is none */
    fault("recordings in order: 14, then 15 at the start", nanpuwiq_compare(g, table, 6, inputs(ins + 1, 1), outputs(outs, 0)), 14, 0);
    /* row of none for input 1, which 0 then has no move to */
    uint16_t other[6] = {0, NANPUWIQ_NONE, 1, NANPUWIQ_NONE, 1, 1};
    fault("recordings in order: 15 alone", nanpuwiq_compare(g, other, 6, inputs(ins, 6), outputs(outs, 6)), 15, 1);
    g.input.moves[0] = 1;
    fault("recordings in order: 14, then 15", nanpuwiq_compare(g, other, 6, inputs(ins, 6), outputs(outs, 6)), 14, 1);
    /* nothing recorded on one side, and a start of none */
    other[0] = NANPUWIQ_NONE;
    ends("recordings in order: no input", nanpuwiq_compare(g, other, 6, inputs(ins, 0), outputs(outs, 6)), 0);
    fault("recordings in order: no output", nanpuwiq_compare(g, other, 6, inputs(ins, 6), outputs(outs, 0)), 15, 0);
}

/* All 128 states, each move there, answered with the input's own number; 128 and 255 are no states even so. */
static void recordings_of_all_states(void)
{
    static uint16_t by_input[128 + 128 * 128];
    nanpuwiq_game g;
    memset(&g, 0, sizeof g);
    g.input.states = g.output.states = 128;
    g.input.initial = g.output.initial = (nanpuwiq_set){UINT64_MAX, UINT64_MAX};
    for (size_t w = 0; w < NANPUWIQ_SET_WORDS * 128; w++)
        g.input.moves[w] = g.output.moves[w] = UINT64_MAX;
    for (size_t k = 0; k < 128 + 128 * 128; k++)
        by_input[k] = k % 128;
    uint8_t in[257], out[257];
    for (size_t n = 0; n < 257; n++)
        in[n] = out[n] = (n * 37 + 127) % 128;
    agrees("128 states", nanpuwiq_compare(g, by_input, 128 + 128 * 128, inputs(in, 257), outputs(out, 257)));
    for (size_t n = 0; n < 257; n += 128)
        for (unsigned wrong = 128; wrong < 256; wrong++) {
            uint8_t right = in[n];
            in[n] = wrong;
            fault("128 states, no such input", nanpuwiq_compare(g, by_input, 128 + 128 * 128, inputs(in, 257), outputs(out, 257)), 14, n);
            out[n] = wrong;
            fault("128 states, no such input or output", nanpuwiq_compare(g, by_input, 128 + 128 * 128, inputs(in, 257), outputs(out, 257)), 14, n);
            in[n] = right;
            differs("128 states, no such output", nanpuwiq_compare(g, by_input, 128 + 128 * 128, inputs(in, 257), outputs(out, 257)), n);
            out[n] = right;
        }
}

/* 300 modes of the pump, the outputs by the player; then something wrong at each step in turn. */
static void recordings_of_the_pump(void)
{
    enum { STEPS = 300 };
    nanpuwiq_kit kit = pump();
    nanpuwiq_game g = game_of(&kit);
    rooms r;
    clear(&r);
    nanpuwiq_solved won = nanpuwiq_solve(g, r.scratch, SCRATCH, r.controller, CONTROLLER, r.panel, PANEL);
    same("pump's recordings: solve", won.code, 0);
    same("pump's recordings: system", won.system, true);
    uint8_t in[STEPS] = {0}, out[STEPS];
    size_t places[STEPS] = {0}; /* of the entry that a step has */
    nanpuwiq_in_state next = {0};
    nanpuwiq_moved m = nanpuwiq_begin(g, r.controller, CONTROLLER, next);
    same("pump's recordings: begin", m.code, 0);
    out[0] = m.at.output.number;
    uint64_t seed = 5;
    for (size_t n = 1; n < STEPS;) {
        seed = seed * 6364136223846793005u + 1442695040888963407u;
        next.number = (seed >> 33) % (n < STEPS - 20 ? 3 : 4);
        places[n] = IN + (m.at.output.number * COUNTERS + m.at.counter) * IN + next.number;
        m = nanpuwiq_step(g, r.controller, CONTROLLER, m.at, next);
        if (m.code == 0) {
            in[n] = next.number;
            out[n++] = m.at.output.number;
        }
    }
    agrees("pump's recordings", nanpuwiq_compare(g, r.controller, CONTROLLER, inputs(in, STEPS), outputs(out, STEPS)));
    int new_places = 0;
    uint64_t been_in = 0, been_out = 0;
    for (size_t n = 0; n < STEPS; n++) {
        agrees("pump's recordings, both cut", nanpuwiq_compare(g, r.controller, CONTROLLER, inputs(in, n), outputs(out, n)));
        ends("pump's recordings, outputs cut", nanpuwiq_compare(g, r.controller, CONTROLLER, inputs(in, STEPS), outputs(out, n)), n);
        ends("pump's recordings, inputs cut", nanpuwiq_compare(g, r.controller, CONTROLLER, inputs(in, n), outputs(out, STEPS)), n);
        uint8_t was = out[n];
        out[n] = (was + 1) % OUT;
        differs("pump's recordings, another output", nanpuwiq_compare(g, r.controller, CONTROLLER, inputs(in, STEPS), outputs(out, STEPS)), n);
        out[n] = was;
        was = in[n];
        nanpuwiq_set moves = n == 0 ? g.input.initial : nanpuwiq_set_at(g.input.moves, in[n - 1]);
        for (in[n] = 0; in[n] < IN; in[n]++)
            if (!nanpuwiq_has(moves, in[n]))
                fault("pump's recordings, no move", nanpuwiq_compare(g, r.controller, CONTROLLER, inputs(in, STEPS), outputs(out, STEPS)), 14, n);
        in[n] = was;
        /* its entry none: a fault at the first step that has it */
        size_t first = 0;
        while (places[first] != places[n])
            first++;
        uint16_t entry = r.controller[places[n]];
        r.controller[places[n]] = NANPUWIQ_NONE;
        fault("pump's recordings, entry of none", nanpuwiq_compare(g, r.controller, CONTROLLER, inputs(in, STEPS), outputs(out, STEPS)), 15, first);
        r.controller[places[n]] = entry;
        new_places += first == n;
        been_in |= (uint64_t)1 << in[n];
        been_out |= (uint64_t)1 << out[n];
    }
    same("pump's recordings: entries", new_places > 10, true);
    same("pump's recordings: old modes", been_in, 15);
    same("pump's recordings: new modes", been_out, 63);
}

static void recordings_refused(void)
{
    nanpuwiq_game right = example(), g = right;
    /* inputs that cannot be picked, outputs that are none: tried later, as is the table's length for 1 to 7 */
    static const uint8_t wrong[3] = {255, 255, 255};
    g.input.states = 0;
    compared("recordings refused: 1", nanpuwiq_compare(g, table, 6, inputs(ins, 6), outputs(outs, 6)), 1, false, false, 0);
    g = right, g.output.states = 129;
    compared("recordings refused: 1, 129 states", nanpuwiq_compare(g, table, 5, inputs(wrong, 3), outputs(wrong, 3)), 1, false, false, 0);
    g = right, g.output.initial = low(4);
    compared("recordings refused: 2", nanpuwiq_compare(g, table, 6, inputs(ins, 6), outputs(outs, 6)), 2, false, false, 0);
    g = right, g.input.initial = low(0);
    compared("recordings refused: 3", nanpuwiq_compare(g, table, 6, inputs(ins, 6), outputs(outs, 6)), 3, false, false, 0);
    /* the new drive latches in 1, which is no refusal: the row that has it go on is at fault */
    g = right, g.output.moves[2] = 0;
    compared("recordings, a drive that latches", nanpuwiq_compare(g, table, 6, inputs(ins, 6), outputs(outs, 6)), 15, false, false, 2);
    g = right, g.k = 9;
    compared("recordings refused: 5", nanpuwiq_compare(g, table, 6, inputs(ins, 6), outputs(outs, 6)), 5, false, false, 0);
    g = right, g.requirements[7].guaranteed = 5;
    compared("recordings refused: 6", nanpuwiq_compare(g, table, 6, inputs(ins, 6), outputs(outs, 6)), 6, false, false, 0);
    g = right, g.requirements[0].assumptions[0].states = low(4);
    compared("recordings refused: 7", nanpuwiq_compare(g, table, 5, inputs(wrong, 3), outputs(wrong, 2)), 7, false, false, 0);
    compared("recordings refused: 7, both empty", nanpuwiq_compare(g, table, 6, inputs(ins, 0), outputs(outs, 0)), 7, false, false, 0);
    static const uint16_t longer[7] = {0, NANPUWIQ_NONE, 1, 1, 1, 1, 1};
    compared("recordings refused: 16, short", nanpuwiq_compare(right, table, 5, inputs(ins, 6), outputs(outs, 6)), 16, false, false, 0);
    compared("recordings refused: 16, long", nanpuwiq_compare(right, longer, 7, inputs(ins, 6), outputs(outs, 6)), 16, false, false, 0);
    compared("recordings refused: 16, no entries", nanpuwiq_compare(right, table, 0, inputs(ins, 6), outputs(outs, 6)), 16, false, false, 0);
    compared("recordings refused: 16, then 14", nanpuwiq_compare(right, table, 5, inputs(wrong, 3), outputs(wrong, 3)), 16, false, false, 0);
    compared("recordings refused: 16, both empty", nanpuwiq_compare(right, table, 5, inputs(ins, 0), outputs(outs, 0)), 16, false, false, 0);
    compared("recordings refused: 16, long, both empty", nanpuwiq_compare(right, longer, 7, inputs(ins, 0), outputs(outs, 0)), 16, false, false, 0);
    compared("recordings refused: 16, no outputs", nanpuwiq_compare(right, table, 5, inputs(ins, 6), outputs(outs, 0)), 16, false, false, 0);
    compared("recordings refused: 16, long, no inputs", nanpuwiq_compare(right, longer, 7, inputs(ins, 0), outputs(outs, 6)), 16, false, false, 0);
}

/* The example with a guarantee that is never met: the panel holds input 1. */
static nanpuwiq_game no_adapter(void)
{
    nanpuwiq_game g = example();
    g.requirements[0].guarantees[0].states = low(0);
    return g;
}

static void same_move(const char *what, nanpuwiq_panel_move got, uint8_t code, size_t input, size_t counter)
{
    same(what, got.code, code);
    same(what, got.input.number, input);
    same(what, got.counter, counter);
}

/* All four entries: their numbers, and on a refusal the zeros, the zero position and the old one. */
static void panel_numbers(const char *what, nanpuwiq_game g, const uint16_t *entries, size_t count, nanpuwiq_position at, size_t output,
                          const uint8_t *numbers)
{
    nanpuwiq_out_state picked = {output};
    nanpuwiq_panel_move moves[2] = {nanpuwiq_panel_first(g, entries, count), nanpuwiq_panel_next(g, entries, count, at)};
    nanpuwiq_moved places[2] = {nanpuwiq_panel_begin(g, entries, count, picked), nanpuwiq_panel_step(g, entries, count, at, picked)};
    for (int n = 0; n < 2; n++) {
        same(what, moves[n].code, numbers[2 * n]);
        same(what, places[n].code, numbers[2 * n + 1]);
        if (moves[n].code != 0)
            same_move(what, moves[n], numbers[2 * n], 0, 0);
    }
    if (places[0].code != 0)
        same_position(what, places[0].at, 0, 0, 0);
    if (places[1].code != 0)
        same_position(what, places[1].at, at.input.number, at.output.number, at.counter);
}

static void panel_refusals(void)
{
    nanpuwiq_game right = no_adapter(), g;
    uint64_t scratch[12];
    uint16_t controller[6], panel[5];
    same("panel's table", nanpuwiq_solve(right, scratch, 12, controller, 6, panel, 5).entries, 5);
    static const uint16_t none[5] = {NANPUWIQ_NONE, NANPUWIQ_NONE, NANPUWIQ_NONE, NANPUWIQ_NONE, NANPUWIQ_NONE};
    static const uint16_t far[5] = {1, 2, 2, 128, 128}; /* no initial input; no input; no counter */
    nanpuwiq_position here = {{0}, {0}, 0}, there = {{1}, {1}, 0}, past[3] = {{{2}, {0}, 0}, {{0}, {2}, 0}, {{0}, {0}, 1}};
    /* first, begin, next, step */
    panel_numbers("panel: all well", right, panel, 5, here, 0, (const uint8_t[]){0, 0, 0, 0});
    panel_numbers("panel: 15", right, none, 5, here, 0, (const uint8_t[]){15, 15, 15, 15});
    panel_numbers("panel: 15, names what is none", right, far, 5, here, 0, (const uint8_t[]){15, 15, 15, 15});
    panel_numbers("panel: 15, no counter", right, far, 5, there, 0, (const uint8_t[]){15, 15, 15, 15});
    panel_numbers("panel: 14", right, panel, 5, here, 2, (const uint8_t[]){0, 14, 0, 14});
    panel_numbers("panel: 14, not initial, but a move", right, panel, 5, here, 1, (const uint8_t[]){0, 14, 0, 0});
    panel_numbers("panel: 14 before 15", right, none, 5, here, 2, (const uint8_t[]){15, 14, 15, 14});
    panel_numbers("panel: 16, short", right, panel, 4, here, 0, (const uint8_t[]){16, 16, 16, 16});
    panel_numbers("panel: 16, a controller's table", right, table, 6, here, 0, (const uint8_t[]){16, 16, 16, 16});
    panel_numbers("panel: 16 before 14 and 15", right, none, 4, here, 2, (const uint8_t[]){16, 16, 16, 16});
    for (int n = 0; n < 3; n++) {
        panel_numbers("panel: 16, no such position", right, panel, 5, past[n], 0, (const uint8_t[]){0, 0, 16, 16});
        panel_numbers("panel: 16, no such position, before 14 and 15", right, none, 5, past[n], 2, (const uint8_t[]){15, 14, 16, 16});
    }
    for (uint8_t number = 1; number <= 7; number++) {
        if (number == 4)
            continue;
        g = right;
        switch (number) {
        case 1: g.output.states = 129; break;
        case 2: g.input.moves[0] = 4; break;
        case 3: g.output.initial = low(0); break;
        case 5: g.k = 9; break;
        case 6: g.requirements[7].assumed = 5; break;
        case 7: g.requirements[0].assumptions[0].states = low(4); break;
        }
        const uint8_t numbers[] = {number, number, number, number};
        panel_numbers("panel: 1 to 7", g, panel, 5, here, 0, numbers);
        panel_numbers("panel: 1 to 7 before 16, 14 and 15", g, none, 4, past[0], 2, numbers);
    }
}

static bool meets(nanpuwiq_set a, nanpuwiq_set b)
{
    return (a.low & b.low) != 0 || (a.high & b.high) != 0;
}

/* Whether one of the game's requirements is broken by what these positions visit. */
static bool breaks(const nanpuwiq_game *g, const nanpuwiq_position *from, const nanpuwiq_position *to)
{
    nanpuwiq_set ins = low(0), outs = low(0);
    for (; from != to; from++) {
        ins = nanpuwiq_with(ins, from->input.number);
        outs = nanpuwiq_with(outs, from->output.number);
    }
    for (size_t r = 0; r < g->k; r++) {
        const nanpuwiq_requirement *q = &g->requirements[r];
        bool due = true, met = true;
        for (size_t j = 0; j < q->assumed; j++)
            due = due && meets(q->assumptions[j].states, ins);
        for (size_t j = 0; j < q->guaranteed; j++)
            met = met && meets(q->guarantees[j].states, outs);
        if (due && !met)
            return true;
    }
    return false;
}

/* The pump that is never parked, and low and high are not both to be asked for again and again: 2,000 outputs, and others that are no move, against the
 * panel's table, which goes to and fro between them. The table is read here by its layout; every loop that closes breaks a requirement. */
static void panel_run(void)
{
    enum { STEPS = 2000 };
    static uint16_t controller[4 + 6 * 16 * 4], panel[1 + 4 * 16 * 6];
    static nanpuwiq_position trail[STEPS];
    uint64_t scratch[28];
    nanpuwiq_kit kit = pump();
    require(&kit, 1 << 1, 0);
    kit.requirements[4].assumptions[1].states = low(1 << 2);
    kit.requirements[4].assumed = 2;
    nanpuwiq_game g = game_of(&kit);
    for (size_t s = 0; s < 6; s++)
        g.output.moves[2 * s] &= 31;
    nanpuwiq_solved r = nanpuwiq_solve(g, scratch, nanpuwiq_scratch_words(g), controller, sizeof controller / 2, panel, sizeof panel / 2);
    same("panel's run: solved", r.code, 0);
    same("panel's run: the panel wins", r.system, false);
    size_t counters = 0, steps = 0, loops = 0, apart = 0, sound = 0, wrong = 0;
    for (size_t q = 0; q < g.k; q++)
        counters += g.requirements[q].assumed;
    unsigned seed = 1;
    while (steps < STEPS) {
        nanpuwiq_position last = steps ? trail[steps - 1] : (nanpuwiq_position){{0}, {0}, 0};
        nanpuwiq_set allowed = steps ? nanpuwiq_set_at(g.output.moves, last.output.number) : g.output.initial;
        if (!meets(allowed, allowed))
            break;
        uint16_t entry = panel[steps ? 1 + (last.input.number * counters + last.counter) * g.output.states + last.output.number : 0];
        nanpuwiq_panel_move m = steps ? nanpuwiq_panel_next(g, panel, r.entries, last) : nanpuwiq_panel_first(g, panel, r.entries);
        apart += m.code != 0 || m.input.number != entry % 128 || m.counter != entry / 128;
        nanpuwiq_out_state picked = {(seed = seed * 1103515245 + 12345) >> 16 & 7};
        nanpuwiq_moved to = steps ? nanpuwiq_panel_step(g, panel, r.entries, last, picked) : nanpuwiq_panel_begin(g, panel, r.entries, picked);
        if (!nanpuwiq_has(allowed, picked.number)) {
            apart += to.code != 14 || memcmp(&to.at, &last, sizeof last) != 0;
            wrong++;
            continue;
        }
        apart += to.code != 0 || to.at.input.number != m.input.number || to.at.counter != m.counter || to.at.output.number != picked.number;
        trail[steps] = to.at;
        for (size_t k = 0; k < steps; k++)
            if (memcmp(&trail[k], &to.at, sizeof to.at) == 0) {
                loops++;
                sound += breaks(&g, trail + k, trail + steps);
            }
        steps++;
    }
    same("panel's run: answers that are not the layout's", apart, 0);
    same("panel's run: loops that break no requirement", loops - sound, 0);
    same("panel's run: loops", loops > 1000, true);
    same("panel's run: outputs that are no move", wrong > 100, true);
}

int main(void)
{
    acceptance();
    map();
    map_of_the_joined_positions();
    bars_beside_a_game();
    solving();
    compact_solving();
    moving_tables();
    scratch_of_the_largest();
    explaining();
    explaining_all();
    checking();
    texts();
    playing();
    advancing();
    long_run();
    kit_solving();
    kit_playing();
    kit_no_adapter();
    kit_latches();
    kit_refusals();
    kit_refusals_in_order();
    recordings();
    recordings_with_faulty_tables();
    recordings_in_order();
    recordings_of_all_states();
    recordings_of_the_pump();
    recordings_refused();
    panel_refusals();
    panel_run();
    printf("%d passed, %d failed\n", passed, failed);
    return failed != 0;
}
