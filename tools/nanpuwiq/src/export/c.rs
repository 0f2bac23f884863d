//! A table as C that needs no library: a header, a source, and a test that walks every row.
//!
//! The code keeps to MISRA C:2012 as far as tests/export.py can tell, and to the smallest types that hold the table.
use super::identifiers::Symbol;
use super::kit_table::KitTable;
use super::player::{Player, Side};
use super::rows::{labelled, numbers, plain, wrapped};
use super::Text;

const COMMENT: (&str, &str) = ("/*", "*/");
/// The next mode where a command is barred.
const BARRED: u8 = 255;

/// A table's type and its value for none: eight bits where they hold every value.
struct Entries {
    kind: &'static str,
    bytes: usize,
    none: usize,
}

impl Entries {
    /// For values below this count.
    fn below(count: usize) -> Entries {
        match count <= 255 {
            true => Entries { kind: "uint8_t", bytes: 1, none: 255 },
            false => Entries { kind: "uint16_t", bytes: 2, none: 65_535 },
        }
    }

    fn values(&self, entries: &[Option<usize>]) -> Vec<String> {
        entries.iter().map(|entry| format!("{}U", entry.unwrap_or(self.none))).collect()
    }
}

/// Header, source and test of a player: `(suffix, text)`.
pub fn player(p: &Player) -> Vec<Text> {
    let entries = Entries::below(p.answered().len() * p.counters);
    let columns = p.columns();
    let set_bytes = p.heard().len().div_ceil(8);
    let constants = (p.heard().len() + 1) * set_bytes
        + (p.starts.len() + p.rows.len()) * entries.bytes
        + p.ranks.as_ref().map_or(0, Vec::len);
    let names = constants_of("IN", "INPUTS", "Modes of the old drive (inputs)", &p.inputs)
        + &constants_of("OUT", "OUTPUTS", "Modes of the new drive (outputs)", &p.outputs);
    let fill = |text: &str| {
        let text = by_side(p.side, text)
            .replace("@RANKS", &p.ranks.as_ref().map_or(String::new(), |ranks| ranks_of(ranks)))
            .replace("@COLUMNS", &columns.to_string())
            .replace("@COLUMN", if p.ranks.is_some() { "@_component[@heard]" } else { "@heard" })
            .replace("@PER", if p.ranks.is_some() { "component" } else { "@heard" })
            .replace("@ROWS", &rows_of(p, &entries))
            .replace("@STARTS", &plain(&entries.values(&p.starts)))
            .replace("@FIRST", &entries.values(&p.starts).concat())
            .replace("@MAY", &sets_of(p, set_bytes))
            .replace("@SETBYTES", &set_bytes.to_string())
            .replace("@INDEX", index_of(p.rows.len()))
            .replace("@ENTRY", entries.kind)
            .replace("@NONE", &entries.none.to_string())
            .replace("@COUNT", &p.counters.to_string())
            .replace("@LENGTH", &p.rows.len().to_string())
            .replace("@CONSTANTS", &constants.to_string())
            .replace("@STAYING", staying(p))
            .replace("@NAMES", &names)
            .replace("@WANTED", &wanted_of(p))
            .replace("@BEGUN", &begun_of(p))
            .replace("@HEARABLE", &hearable_of(p));
        let (heard, answer, heards, answers) = match p.side {
            Side::Controller => ("input", "output", "INPUTS", "OUTPUTS"),
            Side::Panel => ("output", "input", "OUTPUTS", "INPUTS"),
        };
        let text = text.replace("@heards", heards).replace("@answers", answers);
        finished(&text.replace("@heard", heard).replace("@answer", answer), p.name, &p.file)
    };
    vec![
        Text::new(".h", fill(PLAYER_HEADER)),
        Text::new(".c", fill(PLAYER_SOURCE)),
        Text::new("_test.c", fill(PLAYER_TEST)),
    ]
}

/// Header, source and test of a kit's table.
pub fn kit(k: &KitTable) -> Vec<Text> {
    let entries = Entries::below(k.new_commands.len() * k.counters);
    let starts = Entries::below(k.new_modes.len() * k.counters);
    let constants = k.old_next.len() + k.new_next.len() + k.starts.len() * starts.bytes + k.rows.len() * entries.bytes;
    let names = constants_of("OLD_MODE", "OLD_MODES", "Modes of the old drive", &k.old_modes)
        + &constants_of("OLD_COMMAND", "OLD_COMMANDS", "Commands of the old drive", &k.old_commands)
        + &constants_of("NEW_MODE", "NEW_MODES", "Modes of the new drive", &k.new_modes)
        + &constants_of("NEW_COMMAND", "NEW_COMMANDS", "Commands of the new drive", &k.new_commands);
    let rows = labelled(&entries.values(&k.rows), k.columns(), COMMENT, |row| k.label(row));
    let fill = |text: &str| {
        let text = text
            .replace("@OLDNEXT", &next_modes(&k.old_next, &k.old_modes, &k.old_commands))
            .replace("@NEWNEXT", &next_modes(&k.new_next, &k.new_modes, &k.new_commands))
            .replace("@ROWS", &rows)
            .replace("@STARTS", &plain(&starts.values(&k.starts)))
            .replace("@INDEX", index_of(k.rows.len()))
            .replace("@ENTRY", entries.kind)
            .replace("@STARTTYPE", starts.kind)
            .replace("@NOSTART", &starts.none.to_string())
            .replace("@NONE", &entries.none.to_string())
            .replace("@COUNT", &k.counters.to_string())
            .replace("@LENGTH", &k.rows.len().to_string())
            .replace("@CONSTANTS", &constants.to_string())
            .replace("@NAMES", &names)
            .replace("@BEGUN", &pairs(&k.starts, k.counters, k.starts.len(), |_| String::new()))
            .replace("@WANTED", &pairs(&k.rows, k.counters, k.columns(), |row| k.label(row)));
        finished(&text, k.name, &k.file)
    };
    vec![Text::new(".h", fill(KIT_HEADER)), Text::new(".c", fill(KIT_SOURCE)), Text::new("_test.c", fill(KIT_TEST))]
}

/// The name in capital letters for macros, as it is for functions.
fn finished(text: &str, name: &str, file: &str) -> String {
    let text = text.replace("@VERSION", nanpuwiq::VERSION).replace("@FILE", file);
    top_wrapped(&text.replace("@@", &name.to_ascii_uppercase()).replace('@', name))
}

/// The text with the comment on its top in lines that are not too long.
fn top_wrapped(text: &str) -> String {
    let Some((top, rest)) = text.strip_prefix("/* ").and_then(|text| text.split_once(" */\n")) else {
        return text.to_string();
    };
    let top = top.replace("\n *\n", "\n\n").replace("\n * ", "\n");
    let lines = wrapped(&top).join("\n * ").replace("\n * \n", "\n *\n");
    format!("/* {lines} */\n{rest}")
}

/// Keeps the parts between `[controller]` or `[panel]` and `[end]` that are of this side.
fn by_side(side: Side, text: &str) -> String {
    let (keep, drop) = match side {
        Side::Controller => ("[controller]\n", "[panel]\n"),
        Side::Panel => ("[panel]\n", "[controller]\n"),
    };
    let mut kept = String::new();
    let mut rest = text;
    while let Some((before, after)) = rest.split_once(drop) {
        kept += before;
        rest = after.split_once("[end]\n").map_or("", |(_, rest)| rest);
    }
    (kept + rest).replace(keep, "").replace("[end]\n", "")
}

/// The count of a list and a constant for each of it.
fn constants_of(part: &str, count: &str, title: &str, list: &[Symbol]) -> String {
    let mut text = format!("/* {title}. */\n#define @@_{count} {}U\n", list.len());
    for Symbol { number, name, word } in list {
        let word = word.to_ascii_uppercase();
        text += &match name.eq_ignore_ascii_case(&word) {
            true => format!("#define @@_{part}_{word} {number}U\n"),
            false => format!("#define @@_{part}_{word} {number}U /* {name} */\n"),
        };
    }
    text + "\n"
}

/// A type for the places of a table of this length.
fn index_of(length: usize) -> &'static str {
    if length <= 65_536 {
        "uint16_t"
    } else {
        "uint32_t"
    }
}

fn ranks_of(ranks: &[usize]) -> String {
    let values: Vec<String> = ranks.iter().map(|rank| format!("{rank}U")).collect();
    RANKS.replace("@VALUES", &plain(&values))
}

/// The bytes of each set, in brackets.
fn sets_of(p: &Player, bytes: usize) -> String {
    let mut text = String::new();
    let sets = p.may();
    for (number, set) in sets.iter().enumerate() {
        let byte = |n: usize| (0..8).filter(|bit| set.get(8 * n + bit) == Some(&true)).map(|bit| 1 << bit).sum::<u32>();
        let values: Vec<String> = (0..bytes).map(|n| format!("0x{:02X}U", byte(n))).collect();
        let comma = if number + 1 == sets.len() { "" } else { "," };
        let label = p.heard().get(number).map_or("at first".to_string(), |symbol| format!("after {}", symbol.name));
        text += &format!("    {{ {} }}{comma} /* {label} */\n", values.join(", "));
    }
    text
}

fn rows_of(p: &Player, entries: &Entries) -> String {
    labelled(&entries.values(&p.rows), p.columns(), COMMENT, |row| row_label(p, row))
}

fn row_label(p: &Player, row: usize) -> String {
    let answered = if p.side == Side::Controller { "output" } else { "input" };
    format!("{answered} {}, counter {}", p.answered()[row / p.counters].name, row % p.counters)
}

fn next_modes(next: &[u8], modes: &[Symbol], commands: &[Symbol]) -> String {
    let values: Vec<String> = numbers(next).iter().map(|mode| format!("{mode}U")).collect();
    labelled(&values, commands.len(), COMMENT, |mode| format!("mode {}", modes[mode].name))
}

/// What a report of the same mode is, in lines of the header's comment.
fn staying(p: &Player) -> &'static str {
    match (p.can_stay(), p.side) {
        (false, _) => "here no mode has one,\n * so a mode that is reported again is refused with 14.",
        (true, Side::Controller) => {
            "here some modes\n * have one, which stands for staying. Where the new drive has to go on while the old one stays, as through a ramp, report the mode again by a\n * clock, with @_step: with @_scan alone the new drive waits."
        }
        (true, Side::Panel) => {
            "here some modes\n * have one, which stands for staying. Where the panel has to go on while the new drive stays, report the mode again by a clock, with\n * @_step: with @_scan alone the panel waits."
        }
    }
}

// ---- the test: what is wanted, told in another form than the tables

/// {answered mode, next counter} of each entry, {255, 255} for none.
fn pairs(entries: &[Option<usize>], counters: usize, width: usize, label: impl Fn(usize) -> String) -> String {
    let pair = |entry: &Option<usize>| match entry {
        Some(number) => format!("{{{}, {}}}", number / counters, number % counters),
        None => format!("{{{BARRED}, {BARRED}}}"),
    };
    labelled(&entries.iter().map(pair).collect::<Vec<_>>(), width, COMMENT, label)
}

/// The rows by heard mode, whatever the table's columns are.
fn wanted_of(p: &Player) -> String {
    let (columns, heard) = (p.columns().max(1), p.heard().len());
    let column = |mode: usize| p.ranks.as_ref().map_or(mode, |ranks| ranks[mode]);
    let rows = p.rows.chunks(columns);
    let wide: Vec<Option<usize>> = rows.flat_map(|row| (0..heard).map(move |mode| row[column(mode)])).collect();
    pairs(&wide, p.counters, heard, |row| row_label(p, row))
}

fn begun_of(p: &Player) -> String {
    pairs(&p.starts, p.counters, p.starts.len(), |_| "the starts".to_string())
}

/// A line of 0 and 1 for each mode, and a last one for the first mode.
fn hearable_of(p: &Player) -> String {
    let line = |set: &Vec<bool>| set.iter().map(|may| if *may { '1' } else { '0' }).collect::<String>();
    p.may().iter().map(|set| format!("    \"{}\",\n", line(set))).collect()
}

const RANKS: &str = "\
/* The component of each input. Components are numbered by their smallest inputs. */
static const uint8_t @_component[@@_INPUTS] = {
@VALUES};

";

const PLAYER_HEADER: &str = "\
[controller]
/* @.h: the controller of @FILE, for C and C++. Written by nanpuwiq @VERSION: do not edit it, export it again.
 *
 * A turn is one move of the old drive (an input) and the new drive's answer to it (an output). It is due when the old drive's mode changes. It is
 * due too when the mode is reported again, if the game has a move from the mode to itself: @STAYING
 * A mode that is only held makes no turn.
 *
 *   @_begin   the first turn, with the old drive's first mode
 *   @_scan    for a loop that samples the old drive's mode: a turn where it has changed, else nothing
 *   @_step    for a program that is told of each move: a turn with each call
 *
 * After a turn at->output is what the new drive is to do. Each function gives a code: @@_FINE, or a number of Nanpuwiq's, and then the place
 * is as it was. A mode that is passed through between two samples is not seen: sample faster than the old drive changes.
[end]
[panel]
/* @.h: the panel of @FILE, for C and C++: no adapter exists, and this panel beats every controller. For a rig that plays the panel.
 * Written by nanpuwiq @VERSION: do not edit it, export it again.
 *
 * A turn is the new drive's answer (an output) and the panel's next pick (an input). It is due when the new drive's mode changes. It is due too
 * when the mode is reported again, if the game has a move from the mode to itself: @STAYING
 * A mode that is only held makes no turn.
 *
 *   @_begin   the panel's first pick, in at->input
 *   @_scan    for a loop that samples the new drive's mode: a turn where it has changed, else nothing
 *   @_step    for a program that is told of each answer: a turn with each call
 *
 * After a turn at->input is what the panel picks next. Each function gives a code: @@_FINE, or a number of Nanpuwiq's, and then the place
 * is as it was. The first answer is one with which the new drive may begin.
[end]
 *
 * Memory: @CONSTANTS bytes of constants, 3 bytes a place, no other variable. Stack: under 200 bytes, compiled by gcc for x86-64 or x86 with any
 * of -O0, -O2 and -Os. No recursion, no allocation, no library, no type of more bits than the table needs. */
#ifndef @@_H
#define @@_H

#include <stdint.h>

#ifdef __cplusplus
extern \"C\" {
#endif

@NAMES/* Values of the counter. */
#define @@_COUNTERS @COUNTU

/* Codes. */
#define @@_FINE 0U
#define @@_NOT_NOW 14U  /* a mode that cannot follow; at first, one with which the drive cannot begin */
#define @@_NO_ENTRY 15U /* an entry that is none: this place is never reached by turns from a beginning */
#define @@_NO_PLACE 16U /* a place that the game does not have, as one that was not begun */

[controller]
/* Input and output after the answer, and the counter. */
[end]
[panel]
/* The panel's pick, the output that it answers (@@_OUTPUTS before the first), and the counter. */
[end]
typedef struct {
    uint8_t input;
    uint8_t output;
    uint8_t counter;
} @_place;

[controller]
uint8_t @_begin(@_place *at, uint8_t input);
uint8_t @_scan(@_place *at, uint8_t input);
uint8_t @_step(@_place *at, uint8_t input);
[end]
[panel]
uint8_t @_begin(@_place *at);
uint8_t @_scan(@_place *at, uint8_t output);
uint8_t @_step(@_place *at, uint8_t output);
[end]

#ifdef __cplusplus
}
#endif

#endif
";

const PLAYER_SOURCE: &str = "\
/* @.c: the tables of @.h and what plays them. Written by nanpuwiq @VERSION: do not edit it, export it again. */
#include \"@.h\"

#include <stdbool.h>

#define @@_SET_BYTES @SETBYTESU
#define @@_COLUMNS @COLUMNSU
#define @@_NO_ROW @NONEU

/* Bit m % 8 of byte m / 8: mode m may be heard after this one; in the last line: at first. */
static const uint8_t @_may[@@_@heards + 1U][@@_SET_BYTES] = {
@MAY};

/* A row has a number: @answer * @@_COUNTERS + counter.
 * An entry is the number of the next row, or @@_NO_ROW. */
[controller]
static const @ENTRY @_starts[@@_INPUTS] = {
@STARTS};
[end]
[panel]
static const @ENTRY @_start = @FIRST;
[end]

@RANKS/* Row by row, an entry for each @PER. */
static const @ENTRY @_rows[@LENGTHU] = {
@ROWS};

/* Whether the mode may be heard after this one, or at first. */
static bool @_follows(uint8_t before, uint8_t @heard)
{
    bool may = false;
    if (@heard < @@_@heards) {
        uint8_t eight = @_may[before][@heard / 8U];
        may = (((uint8_t)(eight >> (@heard % 8U))) & 1U) != 0U;
    }
    return may;
}

static uint8_t @_take(@_place *at, uint8_t @heard, @ENTRY row)
{
    uint8_t code = @@_FINE;
    if (row == @@_NO_ROW) {
        code = @@_NO_ENTRY;
    } else {
        at->@heard = @heard;
        at->@answer = (uint8_t)(row / @@_COUNTERS);
        at->counter = (uint8_t)(row % @@_COUNTERS);
    }
    return code;
}

[controller]
uint8_t @_begin(@_place *at, uint8_t input)
{
    uint8_t code;
    if (!@_follows(@@_INPUTS, input)) {
        code = @@_NOT_NOW;
    } else {
        code = @_take(at, input, @_starts[input]);
    }
    return code;
}
[end]
[panel]
uint8_t @_begin(@_place *at)
{
    return @_take(at, @@_OUTPUTS, @_start);
}
[end]

uint8_t @_scan(@_place *at, uint8_t @heard)
{
    uint8_t code = @@_FINE;
    if (@heard != at->@heard) {
        code = @_step(at, @heard);
    }
    return code;
}

uint8_t @_step(@_place *at, uint8_t @heard)
{
    uint8_t code;
[controller]
    if ((at->input >= @@_INPUTS) || (at->output >= @@_OUTPUTS) || (at->counter >= @@_COUNTERS)) {
[end]
[panel]
    if ((at->output > @@_OUTPUTS) || (at->input >= @@_INPUTS) || (at->counter >= @@_COUNTERS)) {
[end]
        code = @@_NO_PLACE;
    } else if (!@_follows(at->@heard, @heard)) {
        code = @@_NOT_NOW;
    } else {
        @INDEX row = (@INDEX)(((@INDEX)at->@answer * @@_COUNTERS) + at->counter);
        @INDEX entry = (@INDEX)((row * @@_COLUMNS) + @COLUMN);
        code = @_take(at, @heard, @_rows[entry]);
    }
    return code;
}
";

const PLAYER_TEST: &str = "\
/* @_test.c: walks every row of @.c, and what lies past the counts. Written by nanpuwiq @VERSION.
 *
 *     cc @_test.c @.c -o @_test && ./@_test
 *
 * Status 0: every call did what the table says. What is wanted stands here in another form than in @.c. This file is no part of the product that
 * runs: it uses stdio. */
#include \"@.h\"

#include <stdio.h>

/* Whether a mode may be heard after each mode, and in the last line at first. */
static const char *const hearable[@@_@heards + 1] = {
@HEARABLE};

/* {@answer, counter} for each start, and for each row and each @heard; {255, 255} for none. */
[controller]
static const unsigned char begun[@@_INPUTS][2] = {
@BEGUN};
[end]
[panel]
static const unsigned char begun[1][2] = {
@BEGUN};
[end]
static const unsigned char wanted[@@_@answers * @@_COUNTERS * @@_@heards][2] = {
@WANTED};

static unsigned long tried, wrong;

static void compare(const char *what, @_place from, unsigned heard, unsigned code, @_place to, unsigned wanted_code, @_place wanted_place)
{
    tried++;
    if (code != wanted_code || to.input != wanted_place.input || to.output != wanted_place.output || to.counter != wanted_place.counter) {
        if (wrong++ < 10)
            printf(\"%s from %u %u %u with %u: code %u, at %u %u %u\\n\", what, from.input, from.output, from.counter, heard, code, to.input, to.output,
                   to.counter);
    }
}

static int may_hear(unsigned before, unsigned heard)
{
    return heard < @@_@heards && hearable[before][heard] == '1';
}

[controller]
static void begins(void)
{
    for (unsigned heard = 0; heard <= @@_INPUTS; heard++) {
        const @_place nowhere = {255, 255, 255};
        @_place to = nowhere, place = nowhere;
        unsigned code = @@_NOT_NOW;
        if (may_hear(@@_INPUTS, heard)) {
            code = @@_NO_ENTRY;
            if (begun[heard][0] != 255) {
                code = @@_FINE;
                place.input = (uint8_t)heard;
                place.output = begun[heard][0];
                place.counter = begun[heard][1];
            }
        }
        unsigned got = @_begin(&to, (uint8_t)heard);
        compare(\"begin\", nowhere, heard, got, to, code, place);
    }
}
[end]
[panel]
static void begins(void)
{
    const @_place nowhere = {255, 255, 255};
    @_place to = nowhere, place = {begun[0][0], @@_OUTPUTS, begun[0][1]};
    unsigned got = @_begin(&to);
    compare(\"begin\", nowhere, 0, got, to, @@_FINE, place);
}
[end]

static void step(@_place from, unsigned heard)
{
    @_place to = from, place = from, held;
    unsigned code = @@_FINE;
[controller]
    if (from.input >= @@_INPUTS || from.output >= @@_OUTPUTS || from.counter >= @@_COUNTERS) {
[end]
[panel]
    if (from.output > @@_OUTPUTS || from.input >= @@_INPUTS || from.counter >= @@_COUNTERS) {
[end]
        code = @@_NO_PLACE;
    } else if (!may_hear(from.@heard, heard)) {
        code = @@_NOT_NOW;
    } else {
        const unsigned char *entry = wanted[((unsigned long)from.@answer * @@_COUNTERS + from.counter) * @@_@heards + heard];
        code = entry[0] == 255 ? @@_NO_ENTRY : @@_FINE;
        if (code == @@_FINE) {
            place.@heard = (uint8_t)heard;
            place.@answer = entry[0];
            place.counter = entry[1];
        }
    }
    unsigned got = @_step(&to, (uint8_t)heard);
    compare(\"step\", from, heard, got, to, code, place);
    /* a scan is a step where the mode has changed, and nothing where it is held */
    to = from;
    got = @_scan(&to, (uint8_t)heard);
    if (heard == from.@heard)
        compare(\"held\", from, heard, got, to, @@_FINE, from);
    else
        compare(\"scan\", from, heard, got, to, code, place);
    held = to;
    if (got == @@_FINE) {
        got = @_scan(&to, (uint8_t)heard);
        compare(\"held after it\", held, heard, got, to, @@_FINE, held);
    }
}

int main(void)
{
    begins();
    for (unsigned input = 0; input <= @@_INPUTS + 1; input++)
        for (unsigned output = 0; output <= @@_OUTPUTS + 1; output++)
            for (unsigned counter = 0; counter <= @@_COUNTERS; counter++)
                for (unsigned heard = 0; heard <= @@_@heards; heard++) {
                    @_place from = {(uint8_t)input, (uint8_t)output, (uint8_t)counter};
                    step(from, heard);
                }
    printf(\"@: %lu calls, %lu wrong\\n\", tried, wrong);
    return wrong != 0;
}
";

const KIT_HEADER: &str = "\
/* @.h: the kit of @FILE, for C and C++. Written by nanpuwiq @VERSION: do not edit it, export it again.
 *
 * A turn is one command of the panel for the old drive, and the command for the new drive that answers it. It is due when the panel gives a command; the
 * same command may be given again. A command that is only held, as a switch or a button is over many samples, makes one turn. Where it has to count as
 * given again and again, as through a ramp, give it by a clock, with @_step: with @_scan alone the new drive waits.
 *
 *   @_begin   the old drive's first mode
 *   @_scan    for a loop that samples the panel's command: a turn where it is another than the last one taken
 *   @_step    for a program that is told of each command: a turn with each call
 *
 * A scan that makes no turn gives @@_NO_COMMAND in *answer: then there is nothing to give to the new drive. Pass @@_NO_COMMAND to it where the panel
 * gives none: after it the same command makes a turn again. Each function gives a code: @@_FINE, or a number of Nanpuwiq's, and then the place and
 * *answer are as they were.
 *
 * Memory: @CONSTANTS bytes of constants, 4 bytes a place, no other variable. Stack: under 200 bytes, compiled by gcc for x86-64 or x86 with any
 * of -O0, -O2 and -Os. No recursion, no allocation, no library, no type of more bits than the table needs. */
#ifndef @@_H
#define @@_H

#include <stdint.h>

#ifdef __cplusplus
extern \"C\" {
#endif

@NAMES/* No command of either drive. */
#define @@_NO_COMMAND 255U

/* Values of the counter. */
#define @@_COUNTERS @COUNTU

/* Codes. */
#define @@_FINE 0U
#define @@_NOT_NOW 14U  /* a mode with which the old drive cannot begin, or a command that it does not allow now */
#define @@_NO_ENTRY 15U /* an entry that is none: this place is never reached by turns from a beginning */
#define @@_NO_PLACE 16U /* a place that the kit does not have, as one that was not begun */

/* The modes after the answer, the counter, and the command that was taken last. */
typedef struct {
    uint8_t old_mode;
    uint8_t new_mode;
    uint8_t counter;
    uint8_t command;
} @_place;

uint8_t @_begin(@_place *at, uint8_t mode);
uint8_t @_scan(@_place *at, uint8_t command, uint8_t *answer);
uint8_t @_step(@_place *at, uint8_t command, uint8_t *answer);

#ifdef __cplusplus
}
#endif

#endif
";

const KIT_SOURCE: &str = "\
/* @.c: the tables of @.h and what plays them. Written by nanpuwiq @VERSION: do not edit it, export it again. */
#include \"@.h\"

#define @@_BARRED 255U
#define @@_NO_START @NOSTARTU
#define @@_NO_ANSWER @NONEU

/* Where each command leads, by mode; @@_BARRED where it is barred. */
static const uint8_t @_old_next[@@_OLD_MODES * @@_OLD_COMMANDS] = {
@OLDNEXT};
static const uint8_t @_new_next[@@_NEW_MODES * @@_NEW_COMMANDS] = {
@NEWNEXT};

/* For each old mode: new mode * @@_COUNTERS + counter, or @@_NO_START. */
static const @STARTTYPE @_starts[@@_OLD_MODES] = {
@STARTS};

/* By new mode, counter, old mode and old command, the last fastest:
 * new command * @@_COUNTERS + next counter, or @@_NO_ANSWER. */
static const @ENTRY @_rows[@LENGTHU] = {
@ROWS};

uint8_t @_begin(@_place *at, uint8_t mode)
{
    uint8_t code = @@_FINE;
    if (mode >= @@_OLD_MODES) {
        code = @@_NOT_NOW;
    } else {
        @STARTTYPE start = @_starts[mode];
        if (start == @@_NO_START) {
            code = @@_NOT_NOW;
        } else {
            at->old_mode = mode;
            at->new_mode = (uint8_t)(start / @@_COUNTERS);
            at->counter = (uint8_t)(start % @@_COUNTERS);
            at->command = @@_NO_COMMAND;
        }
    }
    return code;
}

uint8_t @_scan(@_place *at, uint8_t command, uint8_t *answer)
{
    uint8_t code = @@_FINE;
    if (command == @@_NO_COMMAND) {
        at->command = command;
        *answer = @@_NO_COMMAND;
    } else if (command == at->command) {
        *answer = @@_NO_COMMAND;
    } else {
        code = @_step(at, command, answer);
    }
    return code;
}

/* What the command leads to in this mode of the old drive; @@_BARRED for what is no command of it. */
static uint8_t @_led(uint8_t mode, uint8_t command)
{
    uint8_t to = @@_BARRED;
    if (command < @@_OLD_COMMANDS) {
        uint16_t place = (uint16_t)(((uint16_t)mode * @@_OLD_COMMANDS) + command);
        to = @_old_next[place];
    }
    return to;
}

uint8_t @_step(@_place *at, uint8_t command, uint8_t *answer)
{
    uint8_t code = @@_FINE;
    if ((at->old_mode >= @@_OLD_MODES) || (at->new_mode >= @@_NEW_MODES) || (at->counter >= @@_COUNTERS)) {
        code = @@_NO_PLACE;
    } else if (@_led(at->old_mode, command) == @@_BARRED) {
        code = @@_NOT_NOW;
    } else {
        @INDEX row = (@INDEX)(((@INDEX)at->new_mode * @@_COUNTERS) + at->counter);
        @INDEX column = (@INDEX)(((@INDEX)at->old_mode * @@_OLD_COMMANDS) + command);
        @ENTRY entry = @_rows[(row * (@@_OLD_MODES * @@_OLD_COMMANDS)) + column];
        if (entry == @@_NO_ANSWER) {
            code = @@_NO_ENTRY;
        } else {
            uint8_t reply = (uint8_t)(entry / @@_COUNTERS);
            uint16_t place = (uint16_t)(((uint16_t)at->new_mode * @@_NEW_COMMANDS) + reply);
            *answer = reply;
            at->old_mode = @_led(at->old_mode, command);
            at->new_mode = @_new_next[place];
            at->counter = (uint8_t)(entry % @@_COUNTERS);
            at->command = command;
        }
    }
    return code;
}
";

const KIT_TEST: &str = "\
/* @_test.c: walks every row of @.c, and what lies past the counts. Written by nanpuwiq @VERSION.
 *
 *     cc @_test.c @.c -o @_test && ./@_test
 *
 * Status 0: every call did what the table says. What is wanted stands here in another form than in @.c. This file is no part of the product that
 * runs: it uses stdio. */
#include \"@.h\"

#include <stdio.h>

/* Where each command leads, 255 where it is barred. */
static const unsigned char old_drive[@@_OLD_MODES * @@_OLD_COMMANDS] = {
@OLDNEXT};
static const unsigned char new_drive[@@_NEW_MODES * @@_NEW_COMMANDS] = {
@NEWNEXT};

/* {new mode, counter} for each old mode, {new command, counter} for each row and each old mode and command; {255, 255} for none. */
static const unsigned char begun[@@_OLD_MODES][2] = {
@BEGUN};
static const unsigned char wanted[@LENGTH][2] = {
@WANTED};

static unsigned long tried, wrong;

static void compare(const char *what, @_place from, unsigned given, unsigned code, @_place to, unsigned answer, unsigned wanted_code, @_place place,
                    unsigned wanted_answer)
{
    tried++;
    if (code != wanted_code || answer != wanted_answer || to.old_mode != place.old_mode || to.new_mode != place.new_mode || to.counter != place.counter ||
        to.command != place.command) {
        if (wrong++ < 10)
            printf(\"%s from %u %u %u with %u: code %u, answer %u, at %u %u %u\\n\", what, from.old_mode, from.new_mode, from.counter, given, code, answer,
                   to.old_mode, to.new_mode, to.counter);
    }
}

static void begins(void)
{
    for (unsigned mode = 0; mode <= @@_OLD_MODES; mode++) {
        const @_place nowhere = {254, 254, 254, 254};
        @_place to = nowhere, place = nowhere;
        unsigned code = @@_NOT_NOW;
        if (mode < @@_OLD_MODES && begun[mode][0] != 255) {
            code = @@_FINE;
            place.old_mode = (uint8_t)mode;
            place.new_mode = begun[mode][0];
            place.counter = begun[mode][1];
            place.command = @@_NO_COMMAND;
        }
        unsigned got = @_begin(&to, (uint8_t)mode);
        compare(\"begin\", nowhere, mode, got, to, 0, code, place, 0);
    }
}

static void step(@_place from, unsigned given)
{
    @_place to = from, place = from, held;
    unsigned code = @@_FINE, wanted_answer = 99;
    uint8_t answer = 99;
    if (from.old_mode >= @@_OLD_MODES || from.new_mode >= @@_NEW_MODES || from.counter >= @@_COUNTERS) {
        code = @@_NO_PLACE;
    } else if (given >= @@_OLD_COMMANDS || old_drive[from.old_mode * @@_OLD_COMMANDS + given] == 255) {
        code = @@_NOT_NOW;
    } else {
        unsigned long row = ((unsigned long)from.new_mode * @@_COUNTERS + from.counter) * @@_OLD_MODES + from.old_mode;
        const unsigned char *entry = wanted[row * @@_OLD_COMMANDS + given];
        code = entry[0] == 255 ? @@_NO_ENTRY : @@_FINE;
        if (code == @@_FINE) {
            wanted_answer = entry[0];
            place.old_mode = old_drive[from.old_mode * @@_OLD_COMMANDS + given];
            place.new_mode = new_drive[from.new_mode * @@_NEW_COMMANDS + entry[0]];
            place.counter = entry[1];
            place.command = (uint8_t)given;
        }
    }
    unsigned got = @_step(&to, (uint8_t)given, &answer);
    compare(\"step\", from, given, got, to, answer, code, place, wanted_answer);
    /* a scan is a step where the command is another one, and nothing where it is held */
    to = from;
    answer = 99;
    got = @_scan(&to, (uint8_t)given, &answer);
    compare(\"scan\", from, given, got, to, answer, code, place, wanted_answer);
    if (got == @@_FINE) {
        held = to;
        got = @_scan(&to, (uint8_t)given, &answer);
        compare(\"held\", held, given, got, to, answer, @@_FINE, held, @@_NO_COMMAND);
        got = @_scan(&to, @@_NO_COMMAND, &answer);
        held.command = @@_NO_COMMAND;
        compare(\"released\", held, @@_NO_COMMAND, got, to, answer, @@_FINE, held, @@_NO_COMMAND);
    }
}

int main(void)
{
    begins();
    for (unsigned old_mode = 0; old_mode <= @@_OLD_MODES; old_mode++)
        for (unsigned new_mode = 0; new_mode <= @@_NEW_MODES; new_mode++)
            for (unsigned counter = 0; counter <= @@_COUNTERS; counter++)
                for (unsigned given = 0; given <= @@_OLD_COMMANDS; given++) {
                    @_place from = {(uint8_t)old_mode, (uint8_t)new_mode, (uint8_t)counter, @@_NO_COMMAND};
                    step(from, given);
                }
    printf(\"@: %lu calls, %lu wrong\\n\", tried, wrong);
    return wrong != 0;
}
";
