//! Records that are known to be right.
#![allow(dead_code)] // no test needs all of them
use nanpuwiq::*;

pub fn graph(initial: &[usize], moves: &[&[usize]]) -> Graph {
    Graph::new(initial, moves).unwrap()
}

pub fn requirement(assumptions: &[&[usize]], guarantees: &[&[usize]]) -> Requirement {
    Requirement::new(assumptions, guarantees).unwrap()
}

pub fn made(input: Graph, output: Graph, requirements: &[Requirement]) -> Game {
    Game::new(input, output, requirements).unwrap()
}

pub fn drive(initial: &[usize], next: &[&[u8]]) -> Drive {
    Drive::new(initial, next).unwrap()
}

pub fn made_kit(old: Drive, new: Drive, requirements: &[Requirement]) -> Kit {
    Kit::new(old, new, requirements).unwrap()
}
