/* What the shared library has beside the entries of the archive: the words, the version and the sizes of the records, for languages that do not read the
 * header. `make shared` links it with libnanpuwiq.a. */
#include "nanpuwiq.h"

const char *nanpuwiq_shared_words(uint8_t number);
const char *nanpuwiq_shared_version(void);
size_t nanpuwiq_shared_size(size_t record);

const char *nanpuwiq_shared_words(uint8_t number)
{
    return nanpuwiq_words(number);
}

const char *nanpuwiq_shared_version(void)
{
    return NANPUWIQ_VERSION;
}

/* Bytes of a record, in this order; 0 past the last. */
size_t nanpuwiq_shared_size(size_t record)
{
    static const size_t sizes[] = {
        sizeof(nanpuwiq_game),      sizeof(nanpuwiq_kit),     sizeof(nanpuwiq_position),   sizeof(nanpuwiq_solved),  sizeof(nanpuwiq_table_moved),
        sizeof(nanpuwiq_counted),   sizeof(nanpuwiq_judged),  sizeof(nanpuwiq_explained),  sizeof(nanpuwiq_checked), sizeof(nanpuwiq_reading),
        sizeof(nanpuwiq_written),   sizeof(nanpuwiq_moved),   sizeof(nanpuwiq_panel_move), sizeof(nanpuwiq_compared), sizeof(nanpuwiq_in_recording),
    };
    return record < sizeof sizes / sizeof *sizes ? sizes[record] : 0;
}
