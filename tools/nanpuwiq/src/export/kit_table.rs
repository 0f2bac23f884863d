//! A kit's table, as exported code tells it. A start is a number of a row, new mode × counters + counter; an entry is new command × counters + next counter.
use super::identifiers::{symbols, Symbol};
use super::source_name;
use crate::kit_file::KitFile;
use nanpuwiq::{COMMANDS, NONE, STATES};

pub struct KitTable<'a> {
    pub name: &'a str,
    pub file: String,
    pub old_modes: Vec<Symbol>,
    pub old_commands: Vec<Symbol>,
    pub new_modes: Vec<Symbol>,
    pub new_commands: Vec<Symbol>,
    /// Where each command leads, by mode; 255 where it is barred.
    pub old_next: Vec<u8>,
    pub new_next: Vec<u8>,
    pub counters: usize,
    pub starts: Vec<Option<usize>>,
    /// By new mode, counter, old mode and old command, the last fastest.
    pub rows: Vec<Option<usize>>,
}

impl<'a> KitTable<'a> {
    pub fn new(name: &'a str, kit: &KitFile, table: &[u16]) -> KitTable<'a> {
        let (starts, rows) = table.split_at(kit.old.modes.len().min(table.len()));
        let counters = kit.counters();
        let entries = |entries: &[u16], radix: usize| -> Vec<Option<usize>> {
            let number = |entry: usize| entry % radix * counters + entry / radix;
            entries.iter().map(|entry| (*entry != NONE).then(|| number(usize::from(*entry)))).collect()
        };
        KitTable {
            name,
            file: source_name(&kit.name),
            old_modes: symbols(&kit.old.modes),
            old_commands: symbols(&kit.old.commands),
            new_modes: symbols(&kit.new.modes),
            new_commands: symbols(&kit.new.commands),
            old_next: kit.old.next(),
            new_next: kit.new.next(),
            counters,
            starts: entries(starts, STATES),
            rows: entries(rows, COMMANDS),
        }
    }

    /// Entries of a row.
    pub fn columns(&self) -> usize {
        self.old_modes.len() * self.old_commands.len()
    }

    /// What a row's comment says.
    pub fn label(&self, row: usize) -> String {
        let mode = &self.new_modes[row / self.counters].name;
        format!("new mode {mode}, counter {}: by old mode and old command", row % self.counters)
    }
}
