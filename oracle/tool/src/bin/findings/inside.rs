//! The paper's domain: nothing panics (run it in the checked build), and kewb agrees with itself.
use kewb::oracle::cubie::CubieCube;
use kewb::oracle::utils::{ALL_MOVES, PHASE2_MOVES};
use kewb::DataTable;
use tool::coords::{arrange, index, number_of, Kind, KINDS};
use tool::cubes::{in_range, solved, DECLARED};
use tool::make::{loose_cube, phase2_scramble, random_cube};
use tool::readers::{picture, read_plain, read_strict};
use tool::rng::Rng;
use tool::search::{search, Answer};
use tool::tables::move_tables;

pub fn inside(seed: u64) {
    let d = DataTable::default();
    let g = &mut Rng::new(seed);
    KINDS.into_iter().for_each(round_trip);
    for _ in 0..200_000 {
        let c = random_cube(g);
        read_back(&c);
        assert!(DECLARED.iter().all(|&m| c.apply_move(m).is_solvable()));
        true_columns(&d, &c, &KINDS[..3], &ALL_MOVES);
        true_columns(&d, &c, &[Kind::Cp], &PHASE2_MOVES);
        let second = solved().apply_moves(&phase2_scramble(g, 40));
        true_columns(&d, &second, &KINDS[3..6], &PHASE2_MOVES);
        any_in_range(g, &c);
    }
    println!("200000 random cubes: pictures read back, moves keep solvability, tables agree with turned cubes");
    searches(&d, g);
}

/// Number to array to number is the identity; of the largest coordinate one number in 9973 and the last thousand.
fn round_trip(kind: Kind) {
    let step = if kind == Kind::Ep { 9973 } else { 1 };
    let last = kind.count().saturating_sub(1000)..kind.count();
    for n in (0..kind.count()).step_by(step).chain(last) {
        assert!(index(kind, &arrange(kind, n).unwrap()) == Ok(n), "{} {n}", kind.name());
    }
    println!("{}: number to array to number is the identity", kind.name());
}

fn read_back(c: &CubieCube) {
    let stickers = picture(c).into_bytes();
    assert!(read_plain(&stickers) == Ok(*c) && read_strict(&stickers) == Ok(*c));
}

/// A table's entries at the cube's own coordinates are those of the cube turned.
fn true_columns(d: &DataTable, c: &CubieCube, kinds: &[Kind], columns: &[kewb::Move]) {
    for &kind in kinds {
        let row = &move_tables(d)[kind as usize][number_of(kind, c) as usize];
        for (j, &m) in columns.iter().enumerate() {
            assert!(row[j] as u64 == number_of(kind, &c.apply_move(m)));
        }
    }
}

/// A cube in range whose pieces repeat, and a string of any colours.
fn any_in_range(g: &mut Rng, c: &CubieCube) {
    let loose = in_range(&loose_cube(g)).unwrap();
    let _ = (loose * *c, *c * loose, loose.is_solvable());
    let _ = loose.apply_moves(&DECLARED);
    let stickers: Vec<u8> = (0..54).map(|_| g.pick(b"URFDLB")).collect();
    let _ = read_plain(&stickers);
}

/// A list found solves its cube and is shorter than the limit.
fn searches(d: &DataTable, g: &mut Rng) {
    for _ in 0..40 {
        let c = random_cube(g);
        for limit in 0..=31 {
            if let (Answer::Solved(p, q), _) = search(d, c, limit, 2_000_000) {
                assert!(c.apply_moves(&p).apply_moves(&q) == solved());
                assert!(p.len() + q.len() < limit as usize);
            }
        }
    }
    println!(
        "40 random cubes at limits 0 to 31, budget 2000000: every list found solves its cube and is below the limit"
    );
}
