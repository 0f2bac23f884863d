/* An exported controller beside the library's player: begin and step must agree in the code and in the place, for every place, and one past each count, with
 * every input, and one past it. Compiled with -DEXPORTED='"FILE"', the file being the export under the name `controller`; run with the game's file. */
#include "nanpuwiq.h"

#include EXPORTED

#include <stdio.h>
#include <stdlib.h>
#include <string.h>

static uint8_t text[NANPUWIQ_TEXT_MOST + 1];
static uint16_t table[NANPUWIQ_TABLE_MOST], panel[NANPUWIQ_TABLE_MOST];
static uint64_t scratch[NANPUWIQ_SCRATCH_MOST];
static unsigned long compared, wrong;

static void compare(const char *what, nanpuwiq_moved wanted, unsigned code, controller_place got)
{
    int same = wanted.code == code && wanted.at.input.number == got.input && wanted.at.output.number == got.output && wanted.at.counter == got.counter;
    compared++;
    if (!same && wrong++ < 10)
        printf("%s: code %u at %u %u %u, not code %d at %zu %zu %zu\n", what, code, got.input, got.output, got.counter, wanted.code,
               wanted.at.input.number, wanted.at.output.number, wanted.at.counter);
}

static void begins(nanpuwiq_game game, size_t entries)
{
    for (unsigned j = 0; j <= game.input.states; j++) {
        nanpuwiq_in_state first = {j};
        controller_place at = {0, 0, 0};
        unsigned code = controller_begin(&at, (uint8_t)j);
        compare("begin", nanpuwiq_begin(game, table, entries, first), code, at);
    }
}

/* A scan is the step where the input has changed, and nothing where it is held; then a hundred scans with it are no turn. */
static void scans(nanpuwiq_position from, unsigned j, unsigned code, controller_place stepped)
{
    controller_place at = {(uint8_t)from.input.number, (uint8_t)from.output.number, (uint8_t)from.counter};
    nanpuwiq_moved wanted = {from, 0};
    if (j != from.input.number) {
        nanpuwiq_position to = {{stepped.input}, {stepped.output}, stepped.counter};
        wanted.at = to;
        wanted.code = (uint8_t)code;
    }
    unsigned got = controller_scan(&at, (uint8_t)j);
    compare("scan", wanted, got, at);
    for (int scan = 0; got == CONTROLLER_FINE && scan < 100; scan++) {
        got = controller_scan(&at, (uint8_t)j);
        if (got != CONTROLLER_FINE || at.output != wanted.at.output.number || at.counter != wanted.at.counter)
            compare("held", wanted, got, at);
    }
}

static void steps(nanpuwiq_game game, size_t entries, unsigned i, unsigned o, unsigned g)
{
    for (unsigned j = 0; j <= game.input.states; j++) {
        nanpuwiq_position from = {{i}, {o}, g};
        nanpuwiq_in_state next = {j};
        controller_place at = {(uint8_t)i, (uint8_t)o, (uint8_t)g};
        unsigned code = controller_step(&at, (uint8_t)j);
        compare("step", nanpuwiq_step(game, table, entries, from, next), code, at);
        scans(from, j, code, at);
    }
}

int main(int count, char **words)
{
    FILE *file = count == 2 ? fopen(words[1], "rb") : NULL;
    if (!file)
        return 2;
    size_t bytes = fread(text, 1, sizeof text, file);
    nanpuwiq_reading reading = nanpuwiq_read(text, bytes);
    nanpuwiq_game game = reading.game;
    nanpuwiq_solved solved = nanpuwiq_solve(game, scratch, NANPUWIQ_SCRATCH_MOST, table, NANPUWIQ_TABLE_MOST, panel, NANPUWIQ_TABLE_MOST);
    if (reading.code || solved.code || !solved.system)
        return 2;
    size_t counters = (solved.entries - game.input.states) / game.input.states / game.output.states;
    /* a row does not depend on the old input: of large games not every one of them is tried */
    unsigned stride = game.input.states > 16 ? 31 : 1;
    begins(game, solved.entries);
    for (unsigned i = 0; i <= game.input.states; i += stride)
        for (unsigned o = 0; o <= game.output.states; o++)
            for (unsigned g = 0; g <= counters; g++)
                steps(game, solved.entries, i, o, g);
    printf("%lu %lu\n", compared, wrong);
    return wrong != 0;
}
