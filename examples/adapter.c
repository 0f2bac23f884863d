/* An adapter between an old panel and a new drive, complete: reads a game, has it solved, and answers the panel.
 *
 *     cc adapter.c $(pkg-config --cflags --libs nanpuwiq) -o adapter
 *     echo 0 1 0 0 | ./adapter flush.game
 *
 * The numbers on standard input are what the panel does to the old drive; each line printed is what the new drive does then.
 * Status 0: all inputs were answered; 1: no adapter exists; 2: something was refused; 3: input or output failed. */
#include <nanpuwiq.h>

#include <stdio.h>

/* The solver allocates nothing: all memory is the caller's, here as much as the largest game needs. */
static uint8_t text[NANPUWIQ_TEXT_MOST + 1];
static uint64_t scratch[NANPUWIQ_SCRATCH_MOST];
static uint16_t controller[NANPUWIQ_TABLE_MOST];
static uint16_t panel[NANPUWIQ_TABLE_MOST];

static int refused(const char *what, uint8_t code)
{
    fprintf(stderr, "adapter: %s: refused %u: %s\n", what, code, nanpuwiq_words(code));
    return 2;
}

static int failed(const char *what)
{
    perror(what);
    return 3;
}

/* The game in a file; its code tells whether it was read. */
static nanpuwiq_reading read_game(FILE *file)
{
    size_t bytes = fread(text, 1, sizeof text, file);
    return nanpuwiq_read(text, bytes);
}

/* Answers the inputs one by one, by the table. */
static int answer(nanpuwiq_game game, size_t entries)
{
    nanpuwiq_moved moved = {{{0}, {0}, 0}, 0};
    unsigned long number;
    int read;
    for (int begun = 0; (read = scanf("%lu", &number)) == 1; begun = 1) {
        nanpuwiq_in_state input = {number};
        if (begun)
            moved = nanpuwiq_step(game, controller, entries, moved.at, input);
        else
            moved = nanpuwiq_begin(game, controller, entries, input);
        if (moved.code)
            return refused("input", moved.code);
        printf("old %zu, new %zu\n", moved.at.input.number, moved.at.output.number);
    }
    if (fflush(stdout) || ferror(stdin))
        return failed("adapter");
    /* what ends the loop is the end of the input, or a word that is no number */
    if (read != EOF) {
        fprintf(stderr, "adapter: input: a word that is no number\n");
        return 2;
    }
    return 0;
}

int main(int count, char **words)
{
    if (count != 2) {
        fprintf(stderr, "usage: adapter GAME\n");
        return 2;
    }
    FILE *file = fopen(words[1], "rb");
    if (!file)
        return failed(words[1]);
    nanpuwiq_reading reading = read_game(file);
    if (ferror(file))
        return failed(words[1]);
    fclose(file);
    if (reading.code)
        return refused(words[1], reading.code);
    nanpuwiq_solved solved = nanpuwiq_solve(reading.game, scratch, NANPUWIQ_SCRATCH_MOST, controller, NANPUWIQ_TABLE_MOST, panel, NANPUWIQ_TABLE_MOST);
    if (solved.code)
        return refused(words[1], solved.code);
    if (!solved.system) {
        fprintf(stderr, "adapter: %s: no adapter exists\n", words[1]);
        return 1;
    }
    return answer(reading.game, solved.entries);
}
