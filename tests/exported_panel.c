/* An exported panel beside the library's player of the panel's table: every place with every output, and one past it, then plays of 300 turns.
 * Compiled with -DEXPORTED='"FILE"', the file being the export under the name `panel`; run with the game's file. */
#include "nanpuwiq.h"

#include EXPORTED

#include <stdio.h>
#include <stdlib.h>

static uint8_t text[NANPUWIQ_TEXT_MOST + 1];
static uint16_t controller[NANPUWIQ_TABLE_MOST], table[NANPUWIQ_TABLE_MOST];
static uint64_t scratch[NANPUWIQ_SCRATCH_MOST];
static unsigned long compared, wrong;

static void check(const char *what, int holds)
{
    compared++;
    if (!holds && wrong++ < 10)
        printf("%s differs\n", what);
}

/* The step by the sets of the game and by nanpuwiq_panel_next. */
static void step(nanpuwiq_game game, size_t entries, panel_place from, unsigned o)
{
    panel_place at = from, held;
    unsigned code = panel_step(&at, (uint8_t)o), wanted = 14;
    nanpuwiq_panel_move move = {{from.input}, from.counter, 0};
    nanpuwiq_set may = from.output < game.output.states ? nanpuwiq_set_at(game.output.moves, from.output) : game.output.initial;
    int moved = o < game.output.states && nanpuwiq_has(may, o);
    if (moved) {
        nanpuwiq_position position = {{from.input}, {o}, from.counter};
        nanpuwiq_panel_move told = nanpuwiq_panel_next(game, table, entries, position);
        wanted = told.code;
        if (!wanted)
            move = told;
    }
    check("code", code == wanted);
    check("place", at.input == move.input.number && at.counter == move.counter && at.output == (wanted ? from.output : o));
    held = at;
    for (int scan = 0; !code && scan < 100; scan++)
        if (panel_scan(&at, (uint8_t)o) || at.input != held.input || at.counter != held.counter || at.output != held.output)
            check("held", 0);
    at = from;
    check("scan", o == from.output ? panel_scan(&at, (uint8_t)o) == PANEL_FINE && at.input == from.input : panel_scan(&at, (uint8_t)o) == code);
}

/* A pick of the drive's side, any that is allowed; 255 for none. */
static unsigned any_of(nanpuwiq_set set, size_t states)
{
    unsigned picks[NANPUWIQ_STATES], count = 0;
    for (unsigned o = 0; o < states; o++)
        if (nanpuwiq_has(set, o))
            picks[count++] = o;
    return count ? picks[(unsigned)rand() % count] : 255;
}

static void play(nanpuwiq_game game, size_t entries)
{
    panel_place at = {255, 255, 255};
    unsigned o = any_of(game.output.initial, game.output.states);
    check("before begin", panel_step(&at, (uint8_t)o) == PANEL_NO_PLACE);
    check("begin", panel_begin(&at) == PANEL_FINE);
    check("first", at.input == nanpuwiq_panel_first(game, table, entries).input.number);
    nanpuwiq_moved position = nanpuwiq_panel_begin(game, table, entries, (nanpuwiq_out_state){o});
    for (int turn = 0; turn < 300 && o != 255 && !position.code; turn++) {
        check("pick", at.input == position.at.input.number && at.counter == position.at.counter);
        unsigned code = panel_step(&at, (uint8_t)o);
        nanpuwiq_panel_move next = nanpuwiq_panel_next(game, table, entries, position.at);
        check("turn", code == next.code && (code || (at.input == next.input.number && at.counter == next.counter)));
        o = any_of(nanpuwiq_set_at(game.output.moves, position.at.output.number), game.output.states);
        if (o != 255)
            position = nanpuwiq_panel_step(game, table, entries, position.at, (nanpuwiq_out_state){o});
    }
}

int main(int count, char **words)
{
    FILE *file = count == 2 ? fopen(words[1], "rb") : NULL;
    if (!file)
        return 2;
    nanpuwiq_reading reading = nanpuwiq_read(text, fread(text, 1, sizeof text, file));
    nanpuwiq_game game = reading.game;
    nanpuwiq_solved solved = nanpuwiq_solve(game, scratch, NANPUWIQ_SCRATCH_MOST, controller, NANPUWIQ_TABLE_MOST, table, NANPUWIQ_TABLE_MOST);
    if (reading.code || solved.code || solved.system)
        return 2;
    for (unsigned i = 0; i < game.input.states; i++)
        for (unsigned before = 0; before <= game.output.states; before++)
            for (unsigned g = 0; g < PANEL_COUNTERS; g++)
                for (unsigned o = 0; o <= game.output.states; o++)
                    step(game, solved.entries, (panel_place){(uint8_t)i, (uint8_t)before, (uint8_t)g}, o);
    for (int n = 0; n < 20; n++)
        play(game, solved.entries);
    printf("%lu %lu\n", compared, wrong);
    return wrong != 0;
}
