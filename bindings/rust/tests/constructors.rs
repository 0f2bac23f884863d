//! What `new` refuses, each time with the number that a game or a kit gets for it: nothing that is given is left out.
use nanpuwiq::*;

fn refused(number: u8) -> Error {
    Error { number, place: 0 }
}

// Numbers past every count, some of which would come to a small one if a word were turned by them.
const PAST: [usize; 6] = [128, 129, 199, 256, 1 << 32, usize::MAX];

#[test]
fn graphs() {
    let g = Graph::new(&[0, 2], &[&[0, 1], &[2], &[]]).unwrap();
    assert_eq!((g.states, g.initial, &g.moves[..4]), (3, Set::from_bits(5), &[3, 4, 0, 0].map(Set::from_bits)[..]));
    assert_eq!(Graph::new(&[0, 199], &[&[0, 128]]), Err(refused(2)));
    for s in PAST {
        assert_eq!(Graph::new(&[0, s], &[&[0]]), Err(refused(2)), "initial {s}");
        assert_eq!(Graph::new(&[0], &[&[0, s]]), Err(refused(2)), "move to {s}");
        // before 3
        assert_eq!(Graph::new(&[], &[&[0], &[s]]), Err(refused(2)), "move to {s}");
        assert_eq!(Graph::new(&[s], &[]), Err(refused(1)), "initial {s}, no state");
        assert_eq!(Graph::new(&[s], &[&[s][..]; 129]), Err(refused(1)), "initial {s}, 129 states");
    }
    // past the count, though the record has a place for it
    assert_eq!(Graph::new(&[1], &[&[0]]), Err(refused(2)));
    assert_eq!(Graph::new(&[0], &[&[1]]), Err(refused(2)));
    assert_eq!(Graph::new(&[], &[&[0]]), Err(refused(3)));
    assert_eq!(Graph::new(&[], &[]), Err(refused(1)));
    assert_eq!(Graph::new(&[0], &[&[0][..]; 129]), Err(refused(1)));
    assert_eq!(Graph::new(&[127], &[&[0, 127][..]; 128]).map(|g| (g.initial, g.moves[127])), Ok((Set::of(127), Set::of(127) | Set::of(0))));
}

#[test]
fn requirements() {
    let q = Requirement::new(&[&[0, 127], &[]], &[&[1]]).unwrap();
    assert_eq!((q.assumed, q.assumptions), (2, [InSet(Set::from_bits(1 << 127 | 1)), InSet(Set::from_bits(0)), InSet(Set::from_bits(0)), InSet(Set::from_bits(0))]));
    assert_eq!((q.guaranteed, q.guarantees), (1, [OutSet(Set::from_bits(2)), OutSet(Set::from_bits(0)), OutSet(Set::from_bits(0)), OutSet(Set::from_bits(0))]));
    for s in PAST {
        assert_eq!(set(&[0, s]), None);
        assert_eq!(Requirement::new(&[&[0, s]], &[]), Err(refused(7)), "assumption of {s}");
        assert_eq!(Requirement::new(&[], &[&[0], &[s]]), Err(refused(7)), "guarantee of {s}");
        assert_eq!(Requirement::new(&[&[s][..]; 5], &[]), Err(refused(6)), "five assumptions of {s}");
        assert_eq!(Requirement::new(&[&[s]], &[&[][..]; 5]), Err(refused(6)), "five guarantees beside an assumption of {s}");
    }
    assert_eq!(set(&[127, 0, 0]), Some(Set { low: 1, high: 1 << 63 }));
    assert_eq!(Requirement::new(&[&[][..]; 4], &[&[][..]; 4]).map(|q| (q.assumed, q.guaranteed)), Ok((4, 4)));
}

#[test]
fn drives() {
    let d = Drive::new(&[1], &[&[1, BARRED], &[0]]).unwrap();
    assert_eq!((d.modes, d.initial, d.commands), (2, Set::of(1), 2));
    assert_eq!((&d.next[..2], &d.next[16..18]), (&[1, BARRED][..], &[0, BARRED][..]));
    let long: &[u8] = &[0; 17];
    for s in PAST {
        assert_eq!(Drive::new(&[0, s], &[&[0]]), Err(refused(2)), "initial {s}");
        // before 2
        assert_eq!(Drive::new(&[s], &[&[1]]), Err(refused(18)), "initial {s}, an entry that is no mode");
        assert_eq!(Drive::new(&[s], &[long]), Err(refused(17)), "initial {s}, 17 commands");
        assert_eq!(Drive::new(&[s], &[long; 129]), Err(refused(1)), "initial {s}, 129 modes");
    }
    assert_eq!(Drive::new(&[0], &[]), Err(refused(1)));
    assert_eq!(Drive::new(&[0], &[&long[..1]; 129]), Err(refused(1)));
    assert_eq!(Drive::new(&[0], &[&[], &[]]), Err(refused(17)));
    assert_eq!(Drive::new(&[0], &[&[0], long]), Err(refused(17)));
    assert_eq!(Drive::new(&[0], &[&[0, 128]]), Err(refused(18)));
    assert_eq!(Drive::new(&[0], &[&[0], &[254]]), Err(refused(18)));
    assert_eq!(Drive::new(&[1], &[&[0]]), Err(refused(2)));
    assert_eq!(Drive::new(&[], &[&[0]]), Err(refused(3)));
    assert!(Drive::new(&[127], &[&[127; 16][..]; 128]).is_ok());
}

#[test]
fn games_and_kits() {
    let g = Graph::new(&[0], &[&[0]]).unwrap();
    let d = Drive::new(&[0], &[&[0]]).unwrap();
    let (q, wide) = (Requirement::default(), Requirement::new(&[], &[&[1]]).unwrap());
    assert_eq!(Game::new(g, g, &[q; 8]).map(|g| (g.k, g.requirements)), Ok((8, [q; 8])));
    assert_eq!(Kit::new(d, d, &[q; 8]).map(|kit| (kit.k, kit.requirements)), Ok((8, [q; 8])));
    // nine, and nine of which the last alone is at fault
    for requirements in [[q; 9], [q, q, q, q, q, q, q, q, wide]] {
        assert_eq!(Game::new(g, g, &requirements), Err(refused(5)));
        assert_eq!(Kit::new(d, d, &requirements), Err(refused(5)));
    }
    assert_eq!(Game::new(g, g, &[q, wide]), Err(refused(7)));
    assert_eq!(Kit::new(d, d, &[wide]), Err(refused(7)));
    // records whose fields were set
    assert_eq!(Game::new(Graph::default(), g, &[q; 9]), Err(refused(1)));
    assert_eq!(Game::new(g, Graph { initial: Set::of(1), ..g }, &[q; 9]), Err(refused(2)));
    assert_eq!(Kit::new(d, Drive { commands: 17, ..d }, &[q; 9]), Err(refused(17)));
    assert_eq!(Game::new(g, g, &[Requirement { assumed: 5, ..q }]), Err(refused(6)));
}
