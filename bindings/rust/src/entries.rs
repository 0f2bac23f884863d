//! The entries of the static library, each in a safe function. A slice passes as its pointer and its length, a record by value.
use crate::{Game, InRecording, InState, Kit, OutRecording, OutState, Position};

#[repr(C)]
pub struct SolveResult {
    pub code: u8,
    pub system: bool,
    pub entries: usize,
}

#[repr(C)]
pub struct ReadResult {
    pub code: u8,
    pub place: usize,
    pub game: Game,
}

#[repr(C)]
pub struct WriteResult {
    pub code: u8,
    pub bytes: usize,
}

#[repr(C)]
pub struct Moved {
    pub at: Position,
    pub code: u8,
}

#[repr(C)]
pub struct PanelMoved {
    pub input: InState,
    pub counter: usize,
    pub code: u8,
}

#[repr(C)]
pub struct MoveResult {
    pub code: u8,
    pub entries: usize,
}

#[repr(C)]
pub struct CountResult {
    pub code: u8,
    pub count: usize,
}

#[repr(C)]
pub struct JudgeResult {
    pub code: u8,
    pub system: bool,
}

#[repr(C)]
pub struct ExplainResult {
    pub code: u8,
    pub ground: u8,
    pub output: OutState,
    pub input: InState,
    pub requirement: usize,
    pub set: usize,
}

#[repr(C)]
pub struct CheckResult {
    pub code: u8,
    pub finding: u8,
    pub input: InState,
    pub walk: usize,
    pub begins: usize,
    pub requirement: usize,
}

#[repr(C)]
pub struct CompareResult {
    pub code: u8,
    pub agree: bool,
    pub ended: bool,
    pub step: usize,
}

#[repr(C)]
struct InBytes {
    states: *const u8,
    steps: usize,
}

#[repr(C)]
struct OutBytes {
    states: *const u8,
    steps: usize,
}

extern "C" {
    fn nanpuwiq_accept(game: Game) -> u8;
    fn nanpuwiq_won_map(game: Game, scratch: *mut u64, scratch_words: usize, map: *mut u64, map_words: usize) -> u8;
    fn nanpuwiq_joined_map(game: Game, scratch: *mut u64, scratch_words: usize, map: *mut u64, map_words: usize) -> u8;
    fn nanpuwiq_barred_map(
        game: Game,
        bars: *const u64,
        bar_words: usize,
        scratch: *mut u64,
        scratch_words: usize,
        map: *mut u64,
        map_words: usize,
    ) -> u8;
    fn nanpuwiq_barred_verdict(game: Game, bars: *const u64, bar_words: usize, scratch: *mut u64, scratch_words: usize) -> JudgeResult;
    fn nanpuwiq_explain(game: Game, scratch: *mut u64, scratch_words: usize, input: InState, output: OutState) -> ExplainResult;
    fn nanpuwiq_explain_all(game: Game, scratch: *mut u64, scratch_words: usize, grounds: *mut u16, entries: usize) -> u8;
    fn nanpuwiq_check(game: Game, table: *const u16, entries: usize, room: *mut u16, room_entries: usize) -> CheckResult;
    fn nanpuwiq_solve(
        game: Game,
        scratch: *mut u64,
        scratch_words: usize,
        controller: *mut u16,
        controller_entries: usize,
        panel: *mut u16,
        panel_entries: usize,
    ) -> SolveResult;
    fn nanpuwiq_solve_compact(
        game: Game,
        scratch: *mut u64,
        scratch_words: usize,
        controller: *mut u16,
        controller_entries: usize,
        panel: *mut u16,
        panel_entries: usize,
    ) -> SolveResult;
    fn nanpuwiq_components(game: Game) -> CountResult;
    fn nanpuwiq_to_compact(game: Game, table: *const u16, entries: usize, room: *mut u16, room_entries: usize) -> MoveResult;
    fn nanpuwiq_to_full(game: Game, table: *const u16, entries: usize, room: *mut u16, room_entries: usize) -> MoveResult;
    fn nanpuwiq_compact_row(
        table: *const u16,
        entries: usize,
        inputs: usize,
        counters: usize,
        components: usize,
        output: OutState,
        counter: usize,
        input: InState,
    ) -> u16;
    fn nanpuwiq_accept_kit(kit: Kit) -> u8;
    fn nanpuwiq_solve_kit(
        kit: Kit,
        scratch: *mut u64,
        scratch_words: usize,
        controller: *mut u16,
        controller_entries: usize,
        panel: *mut u16,
        panel_entries: usize,
        room: *mut u16,
        room_entries: usize,
    ) -> SolveResult;
    fn nanpuwiq_read(text: *const u8, bytes: usize) -> ReadResult;
    fn nanpuwiq_write(game: Game, buffer: *mut u8, bytes: usize) -> WriteResult;
    fn nanpuwiq_begin(game: Game, table: *const u16, entries: usize, first: InState) -> Moved;
    fn nanpuwiq_step(game: Game, table: *const u16, entries: usize, at: Position, next: InState) -> Moved;
    fn nanpuwiq_advance(game: Game, table: *const u16, entries: usize, at: *mut Position, next: InState) -> u8;
    fn nanpuwiq_panel_first(game: Game, table: *const u16, entries: usize) -> PanelMoved;
    fn nanpuwiq_panel_begin(game: Game, table: *const u16, entries: usize, first: OutState) -> Moved;
    fn nanpuwiq_panel_next(game: Game, table: *const u16, entries: usize, at: Position) -> PanelMoved;
    fn nanpuwiq_panel_step(game: Game, table: *const u16, entries: usize, at: Position, next: OutState) -> Moved;
    fn nanpuwiq_compare(game: Game, table: *const u16, entries: usize, inputs: InBytes, outputs: OutBytes) -> CompareResult;
}

// SAFETY, for every call below: a slice's pointer is not null, is aligned and has as many elements as its length says, a reference is as a slice
// of one, and what is lent to be written overlaps nothing else. The entries ask for nothing else.

pub fn accept(game: Game) -> u8 {
    unsafe { nanpuwiq_accept(game) }
}

pub fn won_map(game: Game, scratch: &mut [u64], map: &mut [u64]) -> u8 {
    unsafe { nanpuwiq_won_map(game, scratch.as_mut_ptr(), scratch.len(), map.as_mut_ptr(), map.len()) }
}

pub fn joined_map(game: Game, scratch: &mut [u64], map: &mut [u64]) -> u8 {
    unsafe { nanpuwiq_joined_map(game, scratch.as_mut_ptr(), scratch.len(), map.as_mut_ptr(), map.len()) }
}

pub fn barred_map(game: Game, bars: &[u64], scratch: &mut [u64], map: &mut [u64]) -> u8 {
    unsafe { nanpuwiq_barred_map(game, bars.as_ptr(), bars.len(), scratch.as_mut_ptr(), scratch.len(), map.as_mut_ptr(), map.len()) }
}

pub fn barred_verdict(game: Game, bars: &[u64], scratch: &mut [u64]) -> JudgeResult {
    unsafe { nanpuwiq_barred_verdict(game, bars.as_ptr(), bars.len(), scratch.as_mut_ptr(), scratch.len()) }
}

pub fn explain(game: Game, scratch: &mut [u64], input: InState, output: OutState) -> ExplainResult {
    unsafe { nanpuwiq_explain(game, scratch.as_mut_ptr(), scratch.len(), input, output) }
}

pub fn explain_all(game: Game, scratch: &mut [u64], grounds: &mut [u16]) -> u8 {
    unsafe { nanpuwiq_explain_all(game, scratch.as_mut_ptr(), scratch.len(), grounds.as_mut_ptr(), grounds.len()) }
}

pub fn check(game: Game, table: &[u16], room: &mut [u16]) -> CheckResult {
    unsafe { nanpuwiq_check(game, table.as_ptr(), table.len(), room.as_mut_ptr(), room.len()) }
}

pub fn solve(game: Game, scratch: &mut [u64], controller: &mut [u16], panel: &mut [u16]) -> SolveResult {
    unsafe {
        nanpuwiq_solve(
            game,
            scratch.as_mut_ptr(),
            scratch.len(),
            controller.as_mut_ptr(),
            controller.len(),
            panel.as_mut_ptr(),
            panel.len(),
        )
    }
}

pub fn solve_compact(game: Game, scratch: &mut [u64], controller: &mut [u16], panel: &mut [u16]) -> SolveResult {
    unsafe {
        nanpuwiq_solve_compact(
            game,
            scratch.as_mut_ptr(),
            scratch.len(),
            controller.as_mut_ptr(),
            controller.len(),
            panel.as_mut_ptr(),
            panel.len(),
        )
    }
}

pub fn components(game: Game) -> CountResult {
    unsafe { nanpuwiq_components(game) }
}

pub fn to_compact(game: Game, table: &[u16], room: &mut [u16]) -> MoveResult {
    unsafe { nanpuwiq_to_compact(game, table.as_ptr(), table.len(), room.as_mut_ptr(), room.len()) }
}

pub fn to_full(game: Game, table: &[u16], room: &mut [u16]) -> MoveResult {
    unsafe { nanpuwiq_to_full(game, table.as_ptr(), table.len(), room.as_mut_ptr(), room.len()) }
}

pub fn compact_row(
    table: &[u16],
    inputs: usize,
    counters: usize,
    components: usize,
    output: OutState,
    counter: usize,
    input: InState,
) -> u16 {
    unsafe { nanpuwiq_compact_row(table.as_ptr(), table.len(), inputs, counters, components, output, counter, input) }
}

pub fn accept_kit(kit: Kit) -> u8 {
    unsafe { nanpuwiq_accept_kit(kit) }
}

pub fn solve_kit(kit: Kit, scratch: &mut [u64], controller: &mut [u16], panel: &mut [u16], room: &mut [u16]) -> SolveResult {
    unsafe {
        nanpuwiq_solve_kit(
            kit,
            scratch.as_mut_ptr(),
            scratch.len(),
            controller.as_mut_ptr(),
            controller.len(),
            panel.as_mut_ptr(),
            panel.len(),
            room.as_mut_ptr(),
            room.len(),
        )
    }
}

pub fn read(text: &[u8]) -> ReadResult {
    unsafe { nanpuwiq_read(text.as_ptr(), text.len()) }
}

pub fn write(game: Game, buffer: &mut [u8]) -> WriteResult {
    unsafe { nanpuwiq_write(game, buffer.as_mut_ptr(), buffer.len()) }
}

pub fn begin(game: Game, table: &[u16], first: InState) -> Moved {
    unsafe { nanpuwiq_begin(game, table.as_ptr(), table.len(), first) }
}

pub fn step(game: Game, table: &[u16], at: Position, next: InState) -> Moved {
    unsafe { nanpuwiq_step(game, table.as_ptr(), table.len(), at, next) }
}

pub fn advance(game: Game, table: &[u16], at: &mut Position, next: InState) -> u8 {
    unsafe { nanpuwiq_advance(game, table.as_ptr(), table.len(), at, next) }
}

pub fn panel_first(game: Game, table: &[u16]) -> PanelMoved {
    unsafe { nanpuwiq_panel_first(game, table.as_ptr(), table.len()) }
}

pub fn panel_begin(game: Game, table: &[u16], first: OutState) -> Moved {
    unsafe { nanpuwiq_panel_begin(game, table.as_ptr(), table.len(), first) }
}

pub fn panel_next(game: Game, table: &[u16], at: Position) -> PanelMoved {
    unsafe { nanpuwiq_panel_next(game, table.as_ptr(), table.len(), at) }
}

pub fn panel_step(game: Game, table: &[u16], at: Position, next: OutState) -> Moved {
    unsafe { nanpuwiq_panel_step(game, table.as_ptr(), table.len(), at, next) }
}

pub fn compare(game: Game, table: &[u16], inputs: InRecording, outputs: OutRecording) -> CompareResult {
    let inputs = InBytes { states: inputs.0.as_ptr(), steps: inputs.0.len() };
    let outputs = OutBytes { states: outputs.0.as_ptr(), steps: outputs.0.len() };
    unsafe { nanpuwiq_compare(game, table.as_ptr(), table.len(), inputs, outputs) }
}
