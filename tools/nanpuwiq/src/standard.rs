//! The standard streams, by their descriptors: the streams of the standard library take a closed output for one that swallows everything.
//! This is the only file with `unsafe`.
use crate::failure::Failure;
use std::fs::File;
use std::io::{self, BufRead, BufReader, IsTerminal, Read, Write};
use std::mem::ManuallyDrop;
use std::os::fd::FromRawFd;
use std::os::raw::{c_int, c_ulong};

const INPUT: c_int = 0;
const OUTPUT: c_int = 1;
const ERRORS: c_int = 2;

/// A line that a person types has at most that many bytes.
pub const LINE_MOST: u64 = 4096;

/// A stream that is not closed when it goes out of scope.
fn stream(descriptor: c_int) -> ManuallyDrop<File> {
    // SAFETY: the descriptor is never closed through this file, and if it is not open every use of it fails with an error
    ManuallyDrop::new(unsafe { File::from_raw_fd(descriptor) })
}

/// Makes a write to a pipe that nobody reads fail, in place of ending the process: then the status tells of it.
pub fn keep_broken_pipes() {
    extern "C" {
        fn signal(number: c_int, handler: usize) -> usize;
    }
    const SIGPIPE: c_int = 13;
    const SIG_IGN: usize = 1;
    // SAFETY: C's function, with a signal of Linux and the constant for "ignore"; no handler runs
    unsafe { signal(SIGPIPE, SIG_IGN) };
}

/// Fails where standard output is closed. This is asked first: a file opened later could get the free descriptor.
pub fn check_output() -> Result<(), Failure> {
    stream(OUTPUT).metadata().map(|_| ()).map_err(Failure::Output)
}

/// Writes all of the bytes to standard output.
pub fn write(bytes: &[u8]) -> Result<(), Failure> {
    stream(OUTPUT).write_all(bytes).map_err(Failure::Output)
}

/// Says a line on standard error. If that fails nobody can be told. Words of a file may be in it, whose control characters are no affair of a terminal.
pub fn say(words: &str) {
    let words: String = words.chars().map(|c| if c.is_control() { '?' } else { c }).collect();
    let _ = stream(ERRORS).write_all(format!("nanpuwiq: {words}\n").as_bytes());
}

/// Says it in the last line of a terminal, over what was said so before.
pub fn say_over(words: &str) {
    let _ = stream(ERRORS).write_all(format!("\r\x1b[K{words}").as_bytes());
}

pub fn errors_is_terminal() -> bool {
    stream(ERRORS).is_terminal()
}

pub fn output_is_terminal() -> bool {
    stream(OUTPUT).is_terminal()
}

pub fn input_is_terminal() -> bool {
    stream(INPUT).is_terminal()
}

/// How many columns the terminal has that standard output is.
pub fn output_columns() -> Option<usize> {
    #[repr(C)]
    struct Size {
        rows: u16,
        columns: u16,
        width: u16,
        height: u16,
    }
    extern "C" {
        fn ioctl(descriptor: c_int, request: c_ulong, ...) -> c_int;
    }
    const TIOCGWINSZ: c_ulong = 0x5413;
    let mut size = Size { rows: 0, columns: 0, width: 0, height: 0 };
    // SAFETY: C's function, with a request of Linux that writes one such record; a descriptor that is no terminal is an error
    let failed = unsafe { ioctl(OUTPUT, TIOCGWINSZ, &raw mut size) } != 0;
    Some(usize::from(size.columns)).filter(|columns| !failed && *columns > 0)
}

/// C's record of how a terminal works, on Linux.
#[repr(C)]
#[derive(Clone, Copy)]
struct Termios {
    input: u32,
    output: u32,
    control: u32,
    local: u32,
    line: u8,
    letters: [u8; 32],
    speeds: [u32; 2],
}

extern "C" {
    fn tcgetattr(descriptor: c_int, termios: *mut Termios) -> c_int;
    fn tcsetattr(descriptor: c_int, when: c_int, termios: *const Termios) -> c_int;
    fn raise(signal: c_int) -> c_int;
}

/// A terminal that gives each key as it is typed. When this goes out of scope the terminal is again as it was.
pub struct Keys(Termios);

impl Keys {
    /// None where standard input is no terminal.
    pub fn of_terminal() -> Option<Keys> {
        const SIGNALS_LINES_ECHO: u32 = 0o1 | 0o2 | 0o10;
        let mut before =
            Termios { input: 0, output: 0, control: 0, local: 0, line: 0, letters: [0; 32], speeds: [0; 2] };
        // SAFETY: C's function fills the record, which has its layout
        if unsafe { tcgetattr(INPUT, &mut before) } != 0 {
            return None;
        }
        let keys = Keys(before);
        keys.set(Termios { local: before.local & !SIGNALS_LINES_ECHO, ..before }).then_some(keys)
    }

    fn set(&self, termios: Termios) -> bool {
        // SAFETY: C's function reads the record, which has its layout; 0 asks for it at once
        unsafe { tcsetattr(INPUT, 0, &termios) == 0 }
    }

    /// The next byte that is typed; none at the end of the input.
    pub fn next(&mut self) -> Result<Option<u8>, Failure> {
        let mut byte = [0];
        let failed = |error| Failure::Input { name: "standard input".to_string(), error };
        Ok((Input.read(&mut byte).map_err(failed)? == 1).then_some(byte[0]))
    }

    /// What the key for an interrupt does in other programs: the terminal is set back, and the process ends by the signal.
    pub fn interrupt(&self) {
        const SIGINT: c_int = 2;
        self.set(self.0);
        // SAFETY: C's function, with a signal of Linux
        unsafe { raise(SIGINT) };
    }
}

impl Drop for Keys {
    fn drop(&mut self) {
        self.set(self.0);
    }
}

/// Standard input.
struct Input;

impl Read for Input {
    fn read(&mut self, bytes: &mut [u8]) -> io::Result<usize> {
        stream(INPUT).read(bytes)
    }
}

/// The bytes of standard input, at most so many.
pub fn read_input(most: u64) -> io::Result<Vec<u8>> {
    let mut bytes = Vec::new();
    Input.take(most).read_to_end(&mut bytes)?;
    Ok(bytes)
}

/// The lines of standard input, one at a time.
pub struct Lines(BufReader<Input>);

impl Lines {
    pub fn of_input() -> Lines {
        Lines(BufReader::new(Input))
    }

    /// The next line without its end and without control characters; none at the end of the input.
    pub fn next(&mut self) -> Result<Option<String>, Failure> {
        let mut bytes = Vec::new();
        let read = (&mut self.0).take(LINE_MOST).read_until(b'\n', &mut bytes);
        let failed = |error| Failure::Input { name: "standard input".to_string(), error };
        match read.map_err(failed)? {
            0 => Ok(None),
            _ if bytes.len() as u64 == LINE_MOST && bytes.last() != Some(&b'\n') => {
                Err(Failure::Refused(format!("standard input: a line of over {LINE_MOST} bytes")))
            }
            _ => Ok(Some(
                String::from_utf8_lossy(&bytes)
                    .chars()
                    .filter(|c| !c.is_control())
                    .collect::<String>()
                    .trim()
                    .to_string(),
            )),
        }
    }
}
