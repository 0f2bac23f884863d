/* An exported kit: prints what begin and step give, a line each, for every place and every command, and for what lies past the counts.
 * Compiled with -DEXPORTED='"FILE"', the file being the export under the name `kit`. */
#include EXPORTED

#include <stdio.h>

int main(void)
{
    for (unsigned mode = 0; mode <= KIT_OLD_MODES; mode++) {
        kit_place at = {0, 0, 0, 0};
        unsigned code = kit_begin(&at, (uint8_t)mode);
        printf("begin %u: %u %u %u %u\n", mode, code, at.old_mode, at.new_mode, at.counter);
    }
    for (unsigned o = 0; o <= KIT_NEW_MODES; o++)
        for (unsigned g = 0; g <= KIT_COUNTERS; g++)
            for (unsigned i = 0; i <= KIT_OLD_MODES; i++)
                for (unsigned c = 0; c <= KIT_OLD_COMMANDS; c++) {
                    kit_place at = {(uint8_t)i, (uint8_t)o, (uint8_t)g, KIT_NO_COMMAND};
                    uint8_t answer = 99;
                    unsigned code = kit_step(&at, (uint8_t)c, &answer);
                    printf("step %u %u %u %u: %u %u %u %u %u\n", o, g, i, c, code, answer, at.old_mode, at.new_mode, at.counter);
                }
    return 0;
}
