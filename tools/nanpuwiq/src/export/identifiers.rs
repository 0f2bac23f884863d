//! Identifiers for C and for Structured Text, made from names, which may have letters of any language. They are ASCII, and no two of a list are the
//! same, whatever their case; a prefix that ends in an underscore keeps them from every other word of the exported code.
use crate::arguments::Arguments;
use crate::failure::Failure;
use std::ffi::OsStr;

/// Letters of the name of the code at most, so that no identifier has more than the 63 that C tells apart.
const CODE_MOST: usize = 16;
/// Letters of an identifier that was made from other letters, at most.
const MADE_MOST: usize = 24;

const CODE_RULE: &str =
    "is no name for code: a letter from a to z, then letters and digits with single '_' between them, 16 at most";

/// A state, mode or command in exported code.
pub struct Symbol {
    pub number: usize,
    /// Its name, or its number: for comments.
    pub name: String,
    /// What follows the prefix.
    pub word: String,
}

/// The symbols of a list of names, each of them a name or the number of its place.
pub fn symbols(names: &[String]) -> Vec<Symbol> {
    let mut words: Vec<Option<String>> = vec![None; names.len()];
    let is_taken = |words: &[Option<String>], word: &str| words.iter().flatten().any(|w| w.eq_ignore_ascii_case(word));
    // names that can stand as they are keep their letters, then the others are made so that they meet none of them
    for (number, name) in names.iter().enumerate() {
        if ascii(name) == *name && !is_taken(&words, name) {
            words[number] = Some(name.clone());
        }
    }
    for (number, name) in names.iter().enumerate().filter(|(number, _)| *number < names.len()) {
        if words[number].is_none() {
            let front: String = ascii(name).chars().take(MADE_MOST).collect();
            let front = front.trim_end_matches('_');
            let mut word = if front.is_empty() { number.to_string() } else { format!("{front}_{number}") };
            while is_taken(&words, &word) {
                word.push('x');
            }
            words[number] = Some(word);
        }
    }
    let named = names.iter().zip(words).enumerate();
    named.map(|(number, (name, word))| Symbol { number, name: told(name), word: word.unwrap_or_default() }).collect()
}

/// The name in the letters a to z, digits and single underscores between them.
fn ascii(name: &str) -> String {
    let mut word = String::new();
    for c in name.chars() {
        match c {
            _ if c.is_ascii_alphanumeric() => word.push(c),
            _ => match spelled(c) {
                Some(letters) => word.push_str(letters),
                None if word.is_empty() || word.ends_with('_') => {}
                None => word.push('_'),
            },
        }
    }
    word.trim_end_matches('_').to_string()
}

/// Latin letters with marks, without them.
fn spelled(c: char) -> Option<&'static str> {
    const SPELLED: [(&str, &str); 40] = [
        ("ä", "ae"),
        ("ö", "oe"),
        ("ü", "ue"),
        ("ß", "ss"),
        ("Ä", "Ae"),
        ("Ö", "Oe"),
        ("Ü", "Ue"),
        ("å", "a"),
        ("Å", "A"),
        ("æ", "ae"),
        ("Æ", "Ae"),
        ("ø", "o"),
        ("Ø", "O"),
        ("àáâãāăą", "a"),
        ("ÀÁÂÃĀĂĄ", "A"),
        ("çćč", "c"),
        ("ÇĆČ", "C"),
        ("ďđð", "d"),
        ("ĎĐ", "D"),
        ("èéêëēęě", "e"),
        ("ÈÉÊËĒĘĚ", "E"),
        ("ğ", "g"),
        ("Ğ", "G"),
        ("ìíîïīı", "i"),
        ("ÌÍÎÏĪİ", "I"),
        ("łľ", "l"),
        ("ŁĽ", "L"),
        ("ñńň", "n"),
        ("ÑŃŇ", "N"),
        ("òóôõōő", "o"),
        ("ÒÓÔÕŌŐ", "O"),
        ("řŕ", "r"),
        ("ŘŔ", "R"),
        ("śšş", "s"),
        ("ŚŠŞ", "S"),
        ("ťţ", "t"),
        ("ŤŢ", "T"),
        ("ùúûūůű", "u"),
        ("ÙÚÛŪŮŰ", "U"),
        ("ýÿ", "y"),
    ];
    match c {
        'ź' | 'ż' | 'ž' => Some("z"),
        'Ź' | 'Ż' | 'Ž' => Some("Z"),
        'Ý' => Some("Y"),
        _ => SPELLED.iter().find(|(letters, _)| letters.contains(c)).map(|(_, word)| *word),
    }
}

/// A text in which nothing can end a comment or turn the direction of writing.
pub fn told(text: &str) -> String {
    let turns = |c: char| matches!(c, '\u{200e}' | '\u{200f}' | '\u{202a}'..='\u{202e}' | '\u{2066}'..='\u{2069}');
    let safe = |c: char| match c.is_ascii() {
        true => c.is_ascii_alphanumeric() || "._- ".contains(c),
        false => !c.is_control() && !turns(c),
    };
    text.chars().map(|c| if safe(c) { c } else { '_' }).collect()
}

/// The name of functions and blocks that was given, or this one.
pub fn code_name(arguments: &Arguments, otherwise: &str) -> Result<String, Failure> {
    let (option, word) = match (arguments.value("--name"), arguments.value("-o")) {
        (Some(word), _) => ("--name", word),
        (None, Some(file)) => ("-o", std::path::Path::new(file).file_name().unwrap_or(OsStr::new(""))),
        (None, None) => return Ok(otherwise.to_string()),
    };
    let more = if option == "-o" { "; --name gives another" } else { "" };
    let shown = word.to_string_lossy();
    let Some(name) = word.to_str().filter(|word| is_code_name(word)) else {
        return Err(arguments.wrong(&format!("{option}: '{shown}' {CODE_RULE}{more}")));
    };
    match taken_by(name) {
        None => Ok(name.to_string()),
        Some(who) => Err(arguments.wrong(&format!("{option}: '{shown}' is {who}, so it cannot name the code{more}"))),
    }
}

fn is_code_name(word: &str) -> bool {
    let letters = word.bytes().all(|b| b.is_ascii_alphanumeric() || b == b'_');
    let joined = !word.contains("__") && !word.ends_with('_');
    letters && joined && word.len() <= CODE_MOST && word.starts_with(|c: char| c.is_ascii_alphabetic())
}

/// Whose word it is already, in any letters: one name does for every form of the export.
fn taken_by(name: &str) -> Option<&'static str> {
    let is_one_of = |words: &str| words.split_ascii_whitespace().any(|word| word.eq_ignore_ascii_case(name));
    if is_one_of(C_WORDS) {
        Some("a keyword of C")
    } else if is_one_of(CPP_WORDS) {
        Some("a keyword of C++")
    } else if is_one_of(IEC_WORDS) {
        Some("a word of IEC 61131-3")
    } else if is_one_of(BLOCK_WORDS) {
        Some("a variable of the exported block")
    } else {
        None
    }
}

const C_WORDS: &str = "auto break case char const continue default do double else enum extern float for goto if inline int long register restrict return
    short signed sizeof static struct switch typedef union unsigned void volatile while alignas alignof bool complex constexpr false imaginary noreturn
    nullptr static_assert thread_local true typeof typeof_unqual asm";

const CPP_WORDS: &str = "and and_eq bitand bitor catch char8_t char16_t char32_t class co_await co_return co_yield compl concept const_cast consteval
    constinit decltype delete dynamic_cast explicit export friend mutable namespace new noexcept not not_eq operator or or_eq private protected public
    reinterpret_cast requires static_cast template this throw try typeid typename using virtual wchar_t xor xor_eq";

/// Keywords of the second and the third edition, and the names of standard types, functions and blocks, which a POU may not have either.
const IEC_WORDS: &str = "ABSTRACT ACTION AND ANDN ANY ANY_BIT ANY_CHAR ANY_CHARS ANY_DATE ANY_DERIVED ANY_DURATION ANY_ELEMENTARY ANY_INT ANY_MAGNITUDE ANY_NUM
    ANY_REAL ANY_SIGNED ANY_STRING ANY_UNSIGNED ARRAY AT BOOL BY BYTE CAL CALC CALCN CASE CHAR CLASS CLASS_INSTANCE CONFIGURATION CONSTANT CONTINUE DATE
    DATE_AND_TIME DINT DO DT DWORD ELSE ELSIF END_ACTION END_CASE END_CLASS END_CONFIGURATION END_FOR END_FUNCTION END_FUNCTION_BLOCK END_IF END_INTERFACE
    END_METHOD END_NAMESPACE END_PROGRAM END_PROPERTY END_REPEAT END_RESOURCE END_STEP END_STRUCT END_TRANSITION END_TYPE END_VAR END_WHILE EN ENO EXIT
    EXTENDS FALSE FINAL FOR FROM FUNCTION FUNCTION_BLOCK F_EDGE F_TRIG IF IMPLEMENTS INITIAL_STEP INT INTERFACE INTERNAL INTERVAL JMP JMPC JMPCN LD LDATE
    LDATE_AND_TIME LDN LDT LINT LREAL LTIME LTIME_OF_DAY LTOD LWORD METHOD MOD NAMESPACE NIL NON_RETAIN NOT NULL OF ON OR ORN OVERLAP OVERRIDE PRIORITY
    PRIVATE PROGRAM PROPERTY PROTECTED PUBLIC READ_ONLY READ_WRITE REAL REF REFERENCE REF_TO REPEAT RESOURCE RET RETAIN RETC RETCN RETURN R_EDGE R_TRIG RS
    RTC SEMA SINGLE SINT SR ST STEP STN STRING STRUCT SUPER TASK THEN THIS TIME TIME_OF_DAY TO TOD TRANSITION TRUE TYPE UDINT UINT ULINT UNTIL USING USINT
    VAR VAR_ACCESS VAR_CONFIG VAR_EXTERNAL VAR_GLOBAL VAR_INPUT VAR_IN_OUT VAR_OUTPUT VAR_TEMP WCHAR WHILE WITH WORD WSTRING XOR XORN
    ABS ACOS ADD ADD_TIME ASIN ATAN ATAN2 CONCAT COS CTD CTU CTUD DELETE DIV DIVTIME EQ EXP EXPT FIND GE GT INSERT LE LEFT LEN LIMIT LN LOG LOWER_BOUND LT
    MAX MID MIN MOVE MUL MULTIME MUX NE REPLACE RIGHT ROL ROR ROUND SEL SHL SHR SIN SQRT SUB SUB_TIME TAN TOF TON TP TRUNC UPPER_BOUND S R N P";

/// The variables of the exported blocks.
const BLOCK_WORDS: &str = "Begin Trigger OnChange OldMode NewMode Command Answer Turned Code Heard Held Row Entry Due BeginBefore TriggerBefore Counters
    Columns NoEntry Modes May Start Starts Rows ComponentOf Given Taken OldNow NewNow Count OldModes OldCommands NewCommands Barred OldNext NewNext";
