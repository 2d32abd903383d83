//! The tables and the search over them.
use std::sync::OnceLock;
use tsunghawi::{parse_moves, Answer, Cube, Refusal, Tables, MOVES, PRUNES};

/// The true tables, built once.
fn tables() -> &'static Tables {
    static TABLES: OnceLock<Tables> = OnceLock::new();
    TABLES.get_or_init(|| Tables::build().expect("they can be built"))
}

/// The lists together, if a search solved, and the entries made.
fn turns(answer: Answer) -> Option<(Vec<u8>, u32)> {
    match answer {
        Answer::Solved { phase1, phase2, entries } => Some(([phase1, phase2].concat(), entries)),
        Answer::None { .. } | Answer::Spent { .. } => None,
    }
}

#[test]
fn built_tables_are_true() {
    assert_eq!((tables().moves().len(), tables().prunes().len()), (MOVES, PRUNES));
    assert_eq!(tables().check(), Ok(()));
}

#[test]
fn a_damaged_table_is_refused_with_its_place() {
    let mut prunes = tables().prunes().to_vec();
    prunes[1_082_565 + 77] = 0;
    let refusal = Tables::from_blocks(tables().moves().to_vec(), prunes).check().unwrap_err();
    assert_eq!((refusal.number(), refusal.bad_entry()), (13, Some((7, 20))));
    assert_eq!(refusal.to_string(), "refused 13: a table isn't true, table 7 entry 20");
}

#[test]
fn solves_at_limit_23_by_turning() -> Result<(), Refusal> {
    let mut cube = Cube::SOLVED;
    let mut m = 1;
    for _ in 0..10 {
        for _ in 0..25 {
            m = (m * 7 + 5) % 18;
            cube = cube.apply_move(m)?.apply_move((m + 4) % 18)?;
        }
        let (list, entries) = turns(tables().solve(&cube, 23, u32::MAX)?).expect("there is a list below 23");
        assert!(list.len() < 23 && cube.apply_moves(&list)?.is_solved()?);
        assert!(turns(tables().solve(&cube, 23, entries)?).is_some());
        assert_eq!(tables().solve(&cube, 23, entries - 1)?, Answer::Spent { entries: entries - 1 });
    }
    Ok(())
}

#[test]
fn the_papers_small_searches() -> Result<(), Refusal> {
    let solve = |cube: &Cube, limit, budget| tables().solve(cube, limit, budget);
    assert_eq!(solve(&Cube::SOLVED, 0, 1)?, Answer::None { entries: 1 });
    assert_eq!(solve(&Cube::SOLVED, 0, 0)?, Answer::Spent { entries: 0 });
    assert_eq!(solve(&Cube::SOLVED, 1, 2)?, Answer::Solved { phase1: vec![], phase2: vec![], entries: 2 });
    let u = Cube::SOLVED.apply_move(0)?;
    assert!(matches!(solve(&u, 1, u32::MAX)?, Answer::None { .. }));
    assert_eq!(solve(&u, 2, u32::MAX)?, Answer::Solved { phase1: vec![], phase2: parse_moves("U'")?, entries: 6 });
    Ok(())
}

#[test]
fn what_a_search_refuses() {
    let number = |cube: &Cube, limit| tables().solve(cube, limit, 2).err().map(Refusal::number);
    assert_eq!((number(&Cube::SOLVED, 31), number(&Cube::SOLVED, 32)), (None, Some(9)));
    for (at, byte, wanted) in [(0, 8, 4), (16, 12, 5), (8, 3, 6), (8, 1, 6)] {
        let mut bytes = *Cube::SOLVED.as_bytes();
        bytes[at] = byte;
        assert_eq!(number(&Cube::from_bytes(bytes), 23), Some(wanted));
    }
    let none = Tables::from_blocks(vec![], vec![]);
    assert_eq!(none.solve(&Cube::SOLVED, 23, 2).map_err(Refusal::number), Err(10));
}

#[test]
fn untrue_tables_are_refused_as_the_search_meets_them() {
    let zeros = Tables::from_blocks(vec![0; MOVES], vec![0; PRUNES]);
    let r = Cube::SOLVED.apply_move(6).unwrap();
    assert_eq!(zeros.solve(&r, 23, u32::MAX).map_err(Refusal::number), Err(12));
    let ones = Tables::from_blocks(vec![u16::MAX; MOVES], vec![0; PRUNES]);
    assert_eq!(ones.solve(&r, 23, u32::MAX).map_err(Refusal::number), Err(11));
}
