/* Whether an adapter exists where some outputs are barred with certain inputs, and from which pairs: interlocks, lent beside the game.
 *
 *     cc interlock.c $(pkg-config --cflags --libs nanpuwiq) -o interlock
 *     ./interlock service.game 2 0 2 1
 *
 * After the game come the barred pairs, each an input and an output: here outputs 0 and 1 are barred with input 2.
 * Status 0: an adapter exists; 1: none exists; 2: something was refused; 3: input or output failed. */
#include <nanpuwiq.h>

#include <stdio.h>
#include <stdlib.h>

static uint8_t text[NANPUWIQ_TEXT_MOST + 1];
static uint64_t bars[NANPUWIQ_SET_WORDS * NANPUWIQ_STATES];
static uint64_t scratch[NANPUWIQ_BARRED_SCRATCH];
static uint64_t map[NANPUWIQ_SET_WORDS * NANPUWIQ_STATES];

static int refused(const char *what, uint8_t code)
{
    fprintf(stderr, "interlock: %s: refused %u: %s\n", what, code, nanpuwiq_words(code));
    return 2;
}

static int failed(const char *what)
{
    perror(what);
    return 3;
}

/* A state in words, NANPUWIQ_STATES for one that no graph has. */
static size_t state(const char *word)
{
    char *end;
    unsigned long number = strtoul(word, &end, 10);
    return *word && !*end && number < NANPUWIQ_STATES ? number : NANPUWIQ_STATES;
}

/* Whether the pair can be put among the bars. That it is one of the game's is for the library to say. */
static int bar(size_t input, size_t output)
{
    if (input >= NANPUWIQ_STATES || output >= NANPUWIQ_STATES)
        return 0;
    bars[NANPUWIQ_SET_WORDS * input + output / 64] |= UINT64_C(1) << output % 64;
    return 1;
}

static void print_row(size_t input, size_t outputs)
{
    printf("%zu:", input);
    for (size_t o = 0; o < outputs; o++)
        if (map[NANPUWIQ_SET_WORDS * input + o / 64] >> o % 64 & 1)
            printf(" %zu", o);
    printf("\n");
}

/* Verdict and map: for each input the outputs that are won with it. */
static int answer(nanpuwiq_game game)
{
    /* all words that are lent are read, so those past the inputs are zero */
    size_t words = sizeof bars / sizeof *bars;
    nanpuwiq_judged judged = nanpuwiq_barred_verdict(game, bars, words, scratch, NANPUWIQ_BARRED_SCRATCH);
    if (judged.code)
        return refused("bars", judged.code);
    uint8_t code = nanpuwiq_barred_map(game, bars, words, scratch, NANPUWIQ_BARRED_SCRATCH, map, words);
    if (code)
        return refused("bars", code);
    printf(judged.system ? "an adapter exists\n" : "no adapter exists\n");
    for (size_t i = 0; i < game.input.states; i++)
        print_row(i, game.output.states);
    return fflush(stdout) ? failed("interlock") : !judged.system;
}

int main(int count, char **words)
{
    if (count < 2 || count % 2) {
        fprintf(stderr, "usage: interlock GAME [INPUT OUTPUT]...\n");
        return 2;
    }
    for (int k = 2; k < count; k += 2)
        if (!bar(state(words[k]), state(words[k + 1])))
            return refused("bars", 29);
    FILE *file = fopen(words[1], "rb");
    if (!file)
        return failed(words[1]);
    nanpuwiq_reading reading = nanpuwiq_read(text, fread(text, 1, sizeof text, file));
    if (ferror(file))
        return failed(words[1]);
    fclose(file);
    return reading.code ? refused(words[1], reading.code) : answer(reading.game);
}
