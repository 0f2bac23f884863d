//! `nanpuwiq completion`: what a shell needs to complete the command's words, made from the table of subcommands.
use crate::arguments::Arguments;
use crate::failure::{Failure, Status};
use crate::standard;
use crate::subcommand::{Subcommand, ALL};
use std::fmt::Write;

pub const SUBCOMMAND: Subcommand = Subcommand {
    name: "completion",
    form: "SHELL",
    words: "print the completion of these words for bash, zsh or fish",
    options: &[],
    help: HELP,
    run,
};

const HELP: &str = "\
nanpuwiq completion bash|zsh|fish

Prints a script by which the shell completes subcommands, options and files. 'make install' puts the three where the shells look for them; else:

  bash    . <(nanpuwiq completion bash)
  zsh     . <(nanpuwiq completion zsh)
  fish    nanpuwiq completion fish | source
";

fn run(arguments: Arguments) -> Result<Status, Failure> {
    let shell = arguments.file_if_any()?.ok_or_else(|| arguments.wrong("which shell?"))?;
    let text = match shell.to_str() {
        Some("bash") => bash(),
        Some("zsh") => zsh(),
        Some("fish") => fish(),
        _ => return Err(arguments.wrong("bash, zsh or fish?")),
    };
    standard::write(text.as_bytes())?;
    Ok(Status::Fine)
}

/// The words that may stand after the command's name: a word, and what it does.
fn first_words() -> Vec<(&'static str, &'static str)> {
    let mut words: Vec<_> = ALL.iter().map(|subcommand| (subcommand.name, subcommand.words)).collect();
    words.extend([
        ("help", "tell how the command or a subcommand is used"),
        ("--help", "tell how it is used"),
        ("--version", "tell the version"),
    ]);
    words
}

/// The words of a subcommand besides files.
fn words_of(subcommand: &Subcommand) -> Vec<&'static str> {
    let shells: &[&str] = if subcommand.name == SUBCOMMAND.name { &["bash", "zsh", "fish"] } else { &[] };
    let options = subcommand.options.iter().map(|(name, _)| *name);
    shells.iter().copied().chain(options).chain(["--help"]).collect()
}

/// What a subcommand's option is for: the line of its help that begins with it.
fn option_words(subcommand: &Subcommand, option: &str) -> String {
    let line = subcommand.help.lines().find(|line| {
        let starts = line.trim_start().strip_prefix(option);
        line.starts_with("  ") && starts.is_some_and(|rest| rest.starts_with([' ', ',']))
    });
    let words = line.and_then(|line| line.trim().split_once("  ")).map_or("", |(_, words)| words.trim());
    words.chars().filter(|c| !"'\"\\[]:`$".contains(*c)).collect()
}

fn names() -> String {
    ALL.iter().map(|subcommand| subcommand.name).collect::<Vec<_>>().join(" ")
}

fn bash() -> String {
    let mut cases = String::new();
    for subcommand in ALL {
        let _ = writeln!(cases, "        {}) words=\"{}\" ;;", subcommand.name, words_of(subcommand).join(" "));
    }
    let first: Vec<&str> = first_words().iter().map(|(word, _)| *word).collect();
    BASH.replace("@FIRST", &first.join(" ")).replace("@NAMES", &names()).replace("@CASES", &cases)
}

const BASH: &str = r#"# Completion of nanpuwiq for bash, made by 'nanpuwiq completion bash'.
_nanpuwiq() {
    local word=${COMP_WORDS[COMP_CWORD]} words=
    COMPREPLY=()
    if [ "$COMP_CWORD" -eq 1 ]; then
        COMPREPLY=($(compgen -W "@FIRST" -- "$word"))
        return
    fi
    case ${COMP_WORDS[1]} in
        help) words="@NAMES" ;;
@CASES    esac
    case ${COMP_WORDS[1]}:$word in
        help:* | completion:* | *:-*) COMPREPLY=($(compgen -W "$words" -- "$word")) ;;
        *)
            local IFS=$'\n'
            compopt -o filenames 2>/dev/null
            COMPREPLY=($(compgen -f -- "$word"))
            ;;
    esac
}
complete -F _nanpuwiq nanpuwiq
"#;

fn zsh() -> String {
    let mut first = String::new();
    for (word, words) in first_words().iter().filter(|(word, _)| !word.starts_with('-')) {
        let _ = writeln!(first, "        '{word}:{}'", words.replace('\'', "").replace(':', ","));
    }
    let mut cases = String::new();
    for subcommand in ALL {
        let options: Vec<String> = subcommand
            .options
            .iter()
            .map(|(name, values)| {
                let values = match *values {
                    0 => "",
                    _ => ":value:_files",
                };
                format!("'*{name}[{}]{values}'", option_words(subcommand, name))
            })
            .collect();
        let rest = match subcommand.name == SUBCOMMAND.name {
            true => "'*:shell:(bash zsh fish)'",
            false => "'*:file:_files'",
        };
        let _ = writeln!(
            cases,
            "        {}) _arguments {} '--help[tell how it is used]' {rest} ;;",
            subcommand.name,
            options.join(" ")
        );
    }
    ZSH.replace("@FIRST", &first).replace("@NAMES", &names()).replace("@CASES", &cases)
}

const ZSH: &str = r#"#compdef nanpuwiq
# Completion of nanpuwiq for zsh, made by 'nanpuwiq completion zsh'.
_nanpuwiq() {
    local -a first
    first=(
@FIRST    )
    if (( CURRENT == 2 )); then
        _describe 'subcommand' first
        _arguments '--help[tell how it is used]' '--version[tell the version]'
        return
    fi
    local subcommand=$words[2]
    words=($words[2,-1])
    (( CURRENT-- ))
    case $subcommand in
        help) _values 'subcommand' @NAMES ;;
@CASES        *) _files ;;
    esac
}
if [ "$funcstack[1]" = "_nanpuwiq" ]; then
    _nanpuwiq "$@"
else
    compdef _nanpuwiq nanpuwiq
fi
"#;

fn fish() -> String {
    let mut text = String::from("# Completion of nanpuwiq for fish, made by 'nanpuwiq completion fish'.\n");
    for (word, words) in first_words().iter().filter(|(word, _)| !word.starts_with('-')) {
        let _ = writeln!(
            text,
            "complete -c nanpuwiq -n __fish_use_subcommand -f -a {word} -d '{}'",
            words.replace('\'', "")
        );
    }
    let _ = writeln!(text, "complete -c nanpuwiq -n __fish_use_subcommand -l version -d 'tell the version'");
    let _ = writeln!(text, "complete -c nanpuwiq -l help -d 'tell how it is used'");
    for subcommand in ALL {
        for (option, values) in subcommand.options {
            let value = if *values > 0 { " -r" } else { "" };
            let _ = writeln!(
                text,
                "complete -c nanpuwiq -n '__fish_seen_subcommand_from {}' -l {}{value} -d '{}'",
                subcommand.name,
                option.trim_start_matches('-'),
                option_words(subcommand, option)
            );
        }
    }
    let _ = writeln!(text, "complete -c nanpuwiq -n '__fish_seen_subcommand_from help' -f -a '{}'", names());
    let _ = writeln!(text, "complete -c nanpuwiq -n '__fish_seen_subcommand_from completion' -f -a 'bash zsh fish'");
    text
}
