//! The function block of a table, for plain Structured Text and for PLCopen XML.
//!
//! Modes and commands are enumerations; CASE makes numbers of them and back, for no conversion of enumerations is in every edition of the language. All
//! arithmetic is in UDINT, for an entry's place can be over 65,535; the only conversion is UINT_TO_UDINT of an entry.
use super::block::{Block, Enumeration, List, Variable};
use super::identifiers::Symbol;
use super::kit_table::KitTable;
use super::player::{Player, Side};
use super::rows::wrapped;

/// The entry that is none.
const NONE: usize = 65_535;
/// The next mode where a command is barred.
const BARRED: usize = 255;

/// The block of a player.
pub fn player(p: &Player) -> Block {
    let old = Enumeration::new(p.name, "OldMode", "Modes of the old drive", &p.inputs);
    let new = Enumeration::new(p.name, "NewMode", "Modes of the new drive", &p.outputs);
    let (heard, answer) = match p.side {
        Side::Controller => (
            Variable::of("OldMode", &old, "the old drive's mode"),
            Variable::of("NewMode", &new, "the answer: the new drive's mode"),
        ),
        Side::Panel => (
            Variable::of("NewMode", &new, "the new drive's mode"),
            Variable::of("OldMode", &old, "the panel's pick: the old drive's mode"),
        ),
    };
    let (heards, answers) = match p.side {
        Side::Controller => (&old, &new),
        Side::Panel => (&new, &old),
    };
    let body = match p.side {
        Side::Controller => PLAYER_BODY.replace("@BEGIN", CONTROLLER_BEGINS).replace("@UNBEGUN", "Held >= Modes"),
        Side::Panel => PLAYER_BODY.replace("@BEGIN", PANEL_BEGINS).replace("@UNBEGUN", "Held > Modes"),
    };
    let column = if p.ranks.is_some() { "UINT_TO_UDINT(ComponentOf[Heard])" } else { "Heard" };
    let body = body
        .replace("@NUMBERED", &numbered(heard.name, "Heard", heards, 0, "Modes"))
        .replace("@ANSWERED", &answered(answer.name, answers, 0, "    "))
        .replace("@COLUMN", column)
        .replace("@HEARD", heard.name)
        .replace("@ANSWER", answer.name);
    Block {
        name: p.name.to_string(),
        top: told(p, if p.side == Side::Controller { CONTROLLER_TOP } else { PANEL_TOP }),
        inputs: vec![
            Variable::plain("Begin", "BOOL", begin_note(p.side)),
            Variable::plain("Trigger", "BOOL", "a rising edge makes a turn, also where the mode is the same"),
            Variable::plain("OnChange", "BOOL", "TRUE: every change of the mode makes a turn"),
            heard,
        ],
        outputs: vec![
            answer,
            Variable::plain("Turned", "BOOL", "TRUE in the scan in which a turn was made"),
            Variable::plain("Code", "UDINT", "of the last turn that was due: 0, or the number of a refusal"),
        ],
        locals: player_locals(p),
        constants: player_constants(p),
        types: vec![old, new],
        body,
    }
}

fn begin_note(side: Side) -> &'static str {
    match side {
        Side::Controller => "a rising edge begins: OldMode is the old drive's first mode",
        Side::Panel => "a rising edge begins: OldMode becomes the panel's first pick",
    }
}

fn player_locals(p: &Player) -> Vec<Variable> {
    let modes = p.heard().len();
    let unbegun = if p.side == Side::Controller { modes } else { modes + 1 };
    let note = match p.side {
        Side::Controller => format!("the mode of the last turn; {modes} before the first"),
        Side::Panel => format!("the mode of the last turn; {modes} after Begin, {unbegun} before it"),
    };
    vec![
        Variable::set("Held", "UDINT", unbegun, &note),
        Variable::set("Row", "UDINT", 0, "the row of the table: answered mode * Counters + counter"),
        Variable::plain("Heard", "UDINT", "the number of the mode now"),
        Variable::plain("Entry", "UDINT", "the next row"),
        Variable::plain("Due", "BOOL", "a turn is due"),
        Variable::plain("BeginBefore", "BOOL", ""),
        Variable::plain("TriggerBefore", "BOOL", ""),
    ]
}

fn player_constants(p: &Player) -> Vec<Variable> {
    let modes = p.heard().len();
    let may = p.may().concat().iter().map(|may| if *may { "TRUE" } else { "FALSE" }.to_string()).collect();
    let after = p.heard().iter().map(|s| format!("after {}", s.name)).chain(["at first".to_string()]).collect();
    let rows = (0..p.answered().len() * p.counters)
        .map(|row| format!("{}, counter {}", p.answered()[row / p.counters].name, row % p.counters))
        .collect();
    let mut constants = vec![
        Variable::set("Modes", "UDINT", modes, "modes that are heard"),
        Variable::set("Counters", "UDINT", p.counters, "values of the counter"),
        Variable::set("Columns", "UDINT", p.columns(), "entries of a row"),
        Variable::set("NoEntry", "UDINT", NONE, ""),
        Variable::array(
            "May",
            "BOOL",
            List { values: may, width: modes, labels: after },
            "whether each mode may be heard",
        ),
    ];
    match p.side {
        Side::Controller => {
            let starts = List { values: entries(&p.starts), width: modes, labels: Vec::new() };
            constants.push(Variable::array("Starts", "UINT", starts, "the row after each first mode, 65535 for none"));
        }
        Side::Panel => {
            let start = p.starts.first().copied().flatten().unwrap_or(NONE);
            constants.push(Variable::set("Start", "UDINT", start, "the row after the panel's first pick"));
        }
    }
    if let Some(ranks) = &p.ranks {
        let ranks = List { values: ranks.iter().map(usize::to_string).collect(), width: modes, labels: Vec::new() };
        constants.push(Variable::array(
            "ComponentOf",
            "UINT",
            ranks,
            "the component of each mode of the old drive: its column",
        ));
    }
    let rows = List { values: entries(&p.rows), width: p.columns(), labels: rows };
    constants.push(Variable::array("Rows", "UINT", rows, "row by row the next rows, 65535 for none"));
    constants
}

/// The block of a kit's table.
pub fn kit(k: &KitTable) -> Block {
    let old = Enumeration::new(k.name, "OldMode", "Modes of the old drive", &k.old_modes);
    let new = Enumeration::new(k.name, "NewMode", "Modes of the new drive", &k.new_modes);
    let given = Enumeration::new(k.name, "OldCommand", "Commands of the panel for the old drive", &k.old_commands)
        .with_none(k.name, "NoOldCommand");
    let answer = Enumeration::new(k.name, "NewCommand", "Commands for the new drive", &k.new_commands)
        .with_none(k.name, "NoNewCommand");
    let body = KIT_BODY
        .replace(
            "@NUMBERED",
            &(numbered("OldMode", "Heard", &old, 0, "OldModes")
                + &numbered("Command", "Given", &given, 1, "OldCommands")),
        )
        .replace("@ANSWERED", &answered_by("Answer", "Entry / Counters", &answer, 1, "            "))
        .replace("@MODE", &answered_by("NewMode", "NewNow", &new, 0, "    "))
        .replace('@', k.name);
    let top = KIT_TOP.replace("@FILE", &k.file).replace("@VERSION", nanpuwiq::VERSION).replace('@', k.name);
    Block {
        name: k.name.to_string(),
        top: wrapped(&top),
        inputs: vec![
            Variable::plain("Begin", "BOOL", "a rising edge begins: OldMode is the old drive's first mode"),
            Variable::plain("Trigger", "BOOL", "a rising edge makes a turn, also where the command is the same"),
            Variable::plain("OnChange", "BOOL", "TRUE: every other command than the one taken last makes a turn"),
            Variable::of("OldMode", &old, "the old drive's mode; looked at when Begin rises"),
            Variable::of("Command", &given, "the panel's command"),
        ],
        outputs: vec![
            Variable::of("Answer", &answer, "the command for the new drive: give it where Turned is TRUE"),
            Variable::of("NewMode", &new, "the new drive's mode after it"),
            Variable::plain("Turned", "BOOL", "TRUE in the scan in which a turn was made"),
            Variable::plain("Code", "UDINT", "of the last turn that was due: 0, or the number of a refusal"),
        ],
        locals: kit_locals(k),
        constants: kit_constants(k),
        types: vec![old, given, new, answer],
        body,
    }
}

fn kit_locals(k: &KitTable) -> Vec<Variable> {
    let (modes, commands) = (k.old_modes.len(), k.old_commands.len());
    vec![
        Variable::set("OldNow", "UDINT", modes, &format!("the old drive's mode; {modes} before Begin")),
        Variable::set("NewNow", "UDINT", 0, "the new drive's mode"),
        Variable::set("Count", "UDINT", 0, "the counter"),
        Variable::set("Taken", "UDINT", commands, &format!("the command taken last; {commands} for none")),
        Variable::plain("Heard", "UDINT", "the number of OldMode"),
        Variable::plain("Given", "UDINT", "the number of Command"),
        Variable::plain("Entry", "UDINT", ""),
        Variable::plain("BeginBefore", "BOOL", ""),
        Variable::plain("TriggerBefore", "BOOL", ""),
    ]
}

fn kit_constants(k: &KitTable) -> Vec<Variable> {
    let next = |next: &[u8], modes: &[Symbol], width: usize| List {
        values: next.iter().map(u8::to_string).collect(),
        width,
        labels: modes.iter().map(|s| s.name.clone()).collect(),
    };
    let starts = List { values: entries(&k.starts), width: k.starts.len(), labels: Vec::new() };
    let labels = (0..k.new_modes.len() * k.counters).map(|row| k.label(row)).collect();
    let rows = List { values: entries(&k.rows), width: k.columns(), labels };
    vec![
        Variable::set("OldModes", "UDINT", k.old_modes.len(), ""),
        Variable::set("OldCommands", "UDINT", k.old_commands.len(), ""),
        Variable::set("NewCommands", "UDINT", k.new_commands.len(), ""),
        Variable::set("Counters", "UDINT", k.counters, "values of the counter"),
        Variable::set("NoEntry", "UDINT", NONE, ""),
        Variable::set("Barred", "UDINT", BARRED, ""),
        Variable::array(
            "OldNext",
            "UINT",
            next(&k.old_next, &k.old_modes, k.old_commands.len()),
            "the old drive: where each command leads, 255 where it is barred",
        ),
        Variable::array("NewNext", "UINT", next(&k.new_next, &k.new_modes, k.new_commands.len()), "the new drive"),
        Variable::array("Starts", "UINT", starts, "for each first mode: new mode * Counters + counter, 65535 for none"),
        Variable::array("Rows", "UINT", rows, "new command * Counters + next counter, 65535 for none"),
    ]
}

fn entries(table: &[Option<usize>]) -> Vec<String> {
    table.iter().map(|entry| entry.unwrap_or(NONE).to_string()).collect()
}

/// The number of an enumeration's value, in a variable; `first` values are for none.
fn numbered(value: &str, number: &str, enumeration: &Enumeration, first: usize, none: &str) -> String {
    let mut text = format!("CASE {value} OF\n");
    for (place, (word, _)) in enumeration.values.iter().enumerate().skip(first) {
        text += &format!("    {word}: {number} := {};\n", place - first);
    }
    text + &format!("ELSE\n    {number} := {none};\nEND_CASE;\n")
}

fn answered(value: &str, enumeration: &Enumeration, first: usize, indent: &str) -> String {
    answered_by(value, "Row / Counters", enumeration, first, indent)
}

/// The enumeration's value for a number.
fn answered_by(value: &str, number: &str, enumeration: &Enumeration, first: usize, indent: &str) -> String {
    let mut text = format!("{indent}CASE {number} OF\n");
    for (place, (word, _)) in enumeration.values.iter().enumerate().skip(first) {
        text += &format!("{indent}    {}: {value} := {word};\n", place - first);
    }
    text + &format!("{indent}END_CASE;\n")
}

fn told(p: &Player, top: &str) -> Vec<String> {
    let staying = match (p.can_stay(), p.side) {
        (false, _) => "here no mode has one, so a mode that is reported again is refused with 14.",
        (true, Side::Controller) => {
            "here some modes have one, which stands for staying.\nWhere the new drive has to go on while the old one stays, as through a ramp, report the mode again by a clock, with Trigger: with\nOnChange alone the new drive waits."
        }
        (true, Side::Panel) => {
            "here some modes have one, which stands for staying. Where the\npanel has to go on while the new drive stays, report the mode again by a clock, with Trigger: with OnChange alone the panel waits."
        }
    };
    let top = top
        .replace("@STAYING", staying)
        .replace("@FILE", &p.file)
        .replace("@VERSION", nanpuwiq::VERSION)
        .replace('@', p.name);
    wrapped(&top)
}

const CONTROLLER_TOP: &str = "\
The controller of @FILE. Written by nanpuwiq @VERSION: do not edit it, export it again.

A turn is one move of the old drive and the new drive's answer to it. It is due when the old drive's mode changes. It is due too when
the mode is reported again, if the game has a move from the mode to itself: @STAYING
A mode that is only held makes no turn, however many scans it is held.

Call the block in every scan. A rising edge of Begin makes the first turn, with OldMode as the old drive's first mode. After it
  OnChange TRUE: every change of OldMode makes a turn; for a mode that is sampled;
  a rising edge of Trigger makes a turn with OldMode, also where it is the same; for moves that are reported.
NewMode is the answer to the last turn. A mode that is passed through between two scans is not seen.

Code is 0, or the number of a refusal, and then the block is where it was: 14 a mode that cannot follow (at Begin: with which the old
drive cannot begin), 15 an entry that is none, 16 a turn before Begin.";

const PANEL_TOP: &str = "\
The panel of @FILE: no adapter exists, and this panel beats every controller. For a rig that plays the panel.
Written by nanpuwiq @VERSION: do not edit it, export it again.

A turn is the new drive's answer and the panel's next pick. It is due when the new drive's mode changes. It is due too when the mode is
reported again, if the game has a move from the mode to itself: @STAYING
A mode that is only held makes no turn, however many scans it is held.

Call the block in every scan. A rising edge of Begin makes the panel's first pick, in OldMode. After it
  OnChange TRUE: every change of NewMode makes a turn, and the first NewMode too; for a mode that is sampled;
  a rising edge of Trigger makes a turn with NewMode, also where it is the same; for answers that are reported.
OldMode is the panel's pick. A mode that is passed through between two scans is not seen.

Code is 0, or the number of a refusal, and then the block is where it was: 14 a mode that cannot follow (the first: with which the new
drive cannot begin), 15 an entry that is none, 16 a turn before Begin.";

const PLAYER_BODY: &str = "\
(* the number of @HEARD *)
@NUMBERED
Turned := FALSE;
Due := FALSE;
@BEGINELSIF (Trigger AND NOT TriggerBefore) OR (OnChange AND (Heard <> Held)) THEN
    Due := TRUE;
    Code := 0;
    IF @UNBEGUN THEN
        Code := 16;
    ELSIF Heard >= Modes THEN
        Code := 14;
    ELSIF NOT May[Held * Modes + Heard] THEN
        Code := 14;
    ELSE
        Entry := UINT_TO_UDINT(Rows[Row * Columns + @COLUMN]);
    END_IF;
END_IF;
IF Due AND (Code = 0) THEN
    IF Entry = NoEntry THEN
        Code := 15;
    ELSE
        Held := Heard;
        Row := Entry;
        Turned := TRUE;
    END_IF;
END_IF;
IF Turned THEN
@ANSWEREDEND_IF;
BeginBefore := Begin;
TriggerBefore := Trigger;
";

const CONTROLLER_BEGINS: &str = "\
IF Begin AND NOT BeginBefore THEN
    Due := TRUE;
    Code := 0;
    IF Heard >= Modes THEN
        Code := 14;
    ELSIF NOT May[Modes * Modes + Heard] THEN
        Code := 14;
    ELSE
        Entry := UINT_TO_UDINT(Starts[Heard]);
    END_IF;
";

const PANEL_BEGINS: &str = "\
IF Begin AND NOT BeginBefore THEN
    Code := 0;
    Held := Modes;
    Row := Start;
    Turned := TRUE;
";

const KIT_TOP: &str = "\
The kit of @FILE. Written by nanpuwiq @VERSION: do not edit it, export it again.

A turn is one command of the panel for the old drive, and the command for the new drive that answers it. It is due when the panel gives a
command; the same command may be given again. A command that is only held makes one turn, however many scans it is held. Where it has to
count as given again and again, as through a ramp, give it by a clock, with Trigger: with OnChange alone the new drive waits.

Call the block in every scan. A rising edge of Begin begins with OldMode as the old drive's first mode; it takes no command. After it
  OnChange TRUE: every other Command than the one taken last makes a turn; for a switch or buttons;
  a rising edge of Trigger makes a turn with Command, also where it is the same; for commands that are reported.
Where Turned is TRUE give Answer to the new drive. Let Command be @_NoOldCommand where the panel gives none: after it the same command makes
a turn again.

Code is 0, or the number of a refusal, and then the block is where it was: 14 a command that the old drive does not allow now (at Begin:
a mode with which it cannot begin), 15 an entry that is none, 16 a turn before Begin.";

const KIT_BODY: &str = "\
(* the numbers of OldMode and Command *)
@NUMBERED
Turned := FALSE;
IF Given >= OldCommands THEN
    Taken := OldCommands;
END_IF;
IF Begin AND NOT BeginBefore THEN
    Code := 0;
    IF Heard >= OldModes THEN
        Code := 14;
    ELSIF UINT_TO_UDINT(Starts[Heard]) = NoEntry THEN
        Code := 14;
    ELSE
        Entry := UINT_TO_UDINT(Starts[Heard]);
        OldNow := Heard;
        NewNow := Entry / Counters;
        Count := Entry MOD Counters;
        Taken := OldCommands;
        Answer := @_NoNewCommand;
    END_IF;
ELSIF (Trigger AND NOT TriggerBefore) OR (OnChange AND (Given <> Taken)) THEN
    Code := 0;
    IF OldNow >= OldModes THEN
        Code := 16;
    ELSIF Given >= OldCommands THEN
        Code := 14;
    ELSIF UINT_TO_UDINT(OldNext[OldNow * OldCommands + Given]) = Barred THEN
        Code := 14;
    ELSE
        Entry := UINT_TO_UDINT(Rows[((NewNow * Counters + Count) * OldModes + OldNow) * OldCommands + Given]);
        IF Entry = NoEntry THEN
            Code := 15;
        ELSE
            Turned := TRUE;
            Taken := Given;
            OldNow := UINT_TO_UDINT(OldNext[OldNow * OldCommands + Given]);
            NewNow := UINT_TO_UDINT(NewNext[NewNow * NewCommands + Entry / Counters]);
            Count := Entry MOD Counters;
@ANSWERED        END_IF;
    END_IF;
END_IF;
IF OldNow < OldModes THEN
@MODEEND_IF;
BeginBefore := Begin;
TriggerBefore := Trigger;
";
