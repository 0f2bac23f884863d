//! Both layouts of a controller's table, and moving a table from one to the other: made from document 02's request "Rows by component" alone.

use crate::game::{Game, Graph};
use crate::solve::Controller;

/// The entry that is none.
const NONE: u16 = 65_535;

/// The states of a graph are at most this many, and an entry is the next state
/// and this many times the next counter.
const STATES: usize = 128;

/// A table in the full layout: a start for each input, then rows by output,
/// counter and input.
pub fn full(controller: &Controller) -> Vec<u16> {
    let starts = controller.starts.iter().map(|start| entry(start.map(|output| (output, 0))));
    let rows = controller.steps.iter().flatten().flatten().map(|step| entry(*step));
    starts.chain(rows).collect()
}

fn entry(step: Option<(usize, usize)>) -> u16 {
    step.map_or(NONE, |(state, counter)| (state + STATES * counter) as u16)
}

/// By input: the rank of its component. Components rank from 0 by smallest
/// state.
pub fn ranks(inputs: &Graph) -> Vec<usize> {
    let reached: Vec<Vec<bool>> = (0..inputs.len()).map(|from| reached(inputs, from)).collect();
    let mut smallest: Vec<usize> = Vec::new();
    let mut ranks = Vec::new();
    for input in 0..inputs.len() {
        let known = smallest.iter().position(|&first| reached[first][input] && reached[input][first]);
        ranks.push(known.unwrap_or(smallest.len()));
        if known.is_none() {
            smallest.push(input);
        }
    }
    ranks
}

fn reached(graph: &Graph, from: usize) -> Vec<bool> {
    let mut reached = vec![false; graph.len()];
    reached[from] = true;
    loop {
        let more: Vec<usize> = (0..graph.len())
            .filter(|&to| !reached[to] && (0..graph.len()).any(|by| reached[by] && graph[by].moves.contains(&to)))
            .collect();
        if more.is_empty() {
            return reached;
        }
        more.into_iter().for_each(|to| reached[to] = true);
    }
}

/// How long a table is: in the full layout, and in the compact one.
pub fn lengths(game: &Game) -> (usize, usize) {
    let inputs = game.inputs.len();
    let components = ranks(&game.inputs).iter().max().map_or(0, |last| last + 1);
    (inputs + pairs(game) * inputs, inputs + inputs + pairs(game) * components)
}

/// Outputs times counters.
fn pairs(game: &Game) -> usize {
    game.outputs.len() * game.output_sets().len().max(1)
}

/// A table of the full layout in the compact one, for a room of so many
/// entries, or the number that it is refused with.
pub fn to_compact(game: &Game, table: &[u16], room: usize) -> Result<Vec<u16>, u8> {
    let (long, short) = lengths(game);
    if table.len() != long {
        return Err(23);
    }
    let (inputs, ranks) = (game.inputs.len(), ranks(&game.inputs));
    let mut compact = table[..inputs].to_vec();
    compact.extend(ranks.iter().map(|&rank| rank as u16));
    for row in table[inputs..].chunks(inputs) {
        let mut by_rank: Vec<Option<u16>> = vec![None; ranks.iter().max().map_or(0, |last| last + 1)];
        for (rank, &entry) in ranks.iter().zip(row) {
            if *by_rank[*rank].get_or_insert(entry) != entry {
                return Err(21);
            }
        }
        compact.extend(by_rank.into_iter().flatten());
    }
    if room < short {
        return Err(9);
    }
    Ok(compact)
}

/// A table of the compact layout in the full one, or the number that it is
/// refused with.
pub fn to_full(game: &Game, table: &[u16], room: usize) -> Result<Vec<u16>, u8> {
    let (long, short) = lengths(game);
    if table.len() != short {
        return Err(23);
    }
    let (inputs, ranks) = (game.inputs.len(), ranks(&game.inputs));
    let listed: Vec<usize> = table[inputs..2 * inputs].iter().map(|&rank| usize::from(rank)).collect();
    if listed != ranks {
        return Err(22);
    }
    if room < long {
        return Err(9);
    }
    let components = ranks.iter().max().map_or(0, |last| last + 1);
    let rows = table[2 * inputs..].chunks(components);
    let entries = rows.flat_map(|row| ranks.iter().map(move |&rank| row[rank]));
    Ok(table[..inputs].iter().copied().chain(entries).collect())
}
