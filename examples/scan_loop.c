/* A main loop around an exported controller: it samples the old drive's mode, as a box beside the panel does, and tells the new drive what to do.
 *
 *     nanpuwiq export --c -o pump flush.game
 *     cc scan_loop.c pump.c -o scan_loop
 *     echo 0 0 0 1 1 1 0 | ./scan_loop
 *
 * Here the samples are numbers on standard input; in a box read_old_mode reads a port, and a timer paces the loop. A mode that is held over many samples makes
 * one turn. Status 0: all samples were taken; 2: the panel did what the old drive does not allow. */
#include "pump.h"

#include <stdio.h>

/* The old drive's mode now; 0 at the end of the samples. */
static int read_old_mode(uint8_t *mode)
{
    unsigned number;
    int read = scanf("%u", &number) == 1;
    *mode = read && number < PUMP_INPUTS ? (uint8_t)number : PUMP_INPUTS;
    return read;
}

static void tell_new_drive(uint8_t mode)
{
    static const char *const names[PUMP_OUTPUTS] = {"pump", "economy", "flush"};
    printf("new drive: %s\n", names[mode]);
}

int main(void)
{
    pump_place at;
    uint8_t mode, told, code;
    if (!read_old_mode(&mode))
        return 0;
    code = pump_begin(&at, mode);
    if (code == PUMP_FINE)
        tell_new_drive(at.output);
    while (code == PUMP_FINE && read_old_mode(&mode)) {
        told = at.output;
        code = pump_scan(&at, mode);
        if (code == PUMP_FINE && at.output != told)
            tell_new_drive(at.output);
    }
    if (code != PUMP_FINE) {
        fprintf(stderr, "scan_loop: refused %u: the old drive cannot be in mode %u now\n", (unsigned)code, (unsigned)mode);
        return 2;
    }
    return 0;
}
