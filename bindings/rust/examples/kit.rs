//! A kit of two pump drives: which command of the new drive answers each command that the panel gives for the old one.
//!
//!     cargo run --release --manifest-path bindings/rust/Cargo.toml --example kit
use nanpuwiq::*;

const OLD_MODES: [&str; 3] = ["stop", "low", "high"];
const OLD_COMMANDS: [&str; 3] = ["off", "slow", "fast"];
const NEW_MODES: [&str; 5] = ["stop", "ramp", "low", "high", "flush"];
const NEW_COMMANDS: [&str; 5] = ["hold", "start", "run", "boost", "flush"];

fn main() -> Result<(), Error> {
    // a row for each mode: where off, slow and fast lead, or barred
    let old = Drive::new(
        &[0],
        &[
            &[0, 1, BARRED],      // stop: off stays, slow starts
            &[BARRED, 1, 2],      // low: slow stays, fast speeds up
            &[BARRED, BARRED, 2], // high is kept until the power is cut
        ],
    )?;
    // the same for hold, start, run, boost and flush
    let new = Drive::new(
        &[0],
        &[
            &[0, 1, BARRED, BARRED, 4],           // stop: once left, not come back to until the power is cut
            &[BARRED, BARRED, 2, BARRED, BARRED], // ramp leads to low
            &[2, BARRED, BARRED, 3, 4],           // low: from here to high or to a flush
            &[3, BARRED, BARRED, BARRED, BARRED], // high: no flush any more
            &[4, 1, BARRED, BARRED, BARRED],      // flush is followed by the ramp
        ],
    )?;
    let requirements = [
        Requirement::new(&[&[0]], &[&[0]])?,       // if stop goes on for ever, the new drive stands still: it does not start before it is asked to
        Requirement::new(&[&[1]], &[&[2], &[4]])?, // if low goes on for ever, it runs low again and again and flushes again and again
        Requirement::new(&[&[2]], &[&[3]])?,       // if high goes on for ever, it runs high again and again
    ];
    let kit = Kit::new(old, new, &requirements)?;
    let Verdict { winner, table } = kit.solve()?;
    if winner == Winner::Environment {
        println!("The new drive cannot stand in for the old one.");
        return Ok(());
    }
    println!("The new drive can stand in for the old one, with a table of {} entries.\n", table.len());

    // what runs beside the new drive: the table, both modes, and a counter below the number of guarantees; a command that is barred has a row of NONE
    let counters = requirements.iter().map(|q| q.guaranteed).sum::<usize>().max(1);
    let mut from = 0;
    let (mut to, mut counter) = (table[from] as usize % 128, table[from] as usize / 128);
    println!("panel    old drive    answer   new drive");
    println!("         {:12}          {}", OLD_MODES[from], NEW_MODES[to]);
    for command in [0, 0, 1, 1, 1, 1, 1, 1, 2, 2, 2, 2] {
        let row = table[old.modes + ((to * counters + counter) * old.modes + from) * old.commands + command] as usize;
        let answer = row % 16;
        counter = row / 16;
        from = old.next[COMMANDS * from + command] as usize;
        to = new.next[COMMANDS * to + answer] as usize;
        println!("{:8} {:12} {:8} {}", OLD_COMMANDS[command], OLD_MODES[from], NEW_COMMANDS[answer], NEW_MODES[to]);
    }
    Ok(())
}
