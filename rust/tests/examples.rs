//! The paper's known examples.
use tsunghawi::{arrangement, index, judge, parse_moves, Cube, Kind, Refusal};

const SOLVED: &[u8] = b"UUUUUUUUURRRRRRRRRFFFFFFFFFDDDDDDDDDLLLLLLLLLBBBBBBBBB";
const AFTER_U: &[u8] = b"UUUUUUUUUBBBRRRRRRRRRFFFFFFDDDDDDDDDFFFLLLLLLLLLBBBBBB";
const KINDS: [Kind; 7] = [Kind::Co, Kind::Eo, Kind::ECombo, Kind::Cp, Kind::UdEp, Kind::EEp, Kind::Ep];

/// The solved cube after a text's moves.
fn after(text: &str) -> Result<Cube, Refusal> {
    Cube::SOLVED.apply_moves(&parse_moves(text)?)
}

#[test]
fn solved_picture_has_coordinates_0() -> Result<(), Refusal> {
    let cube = Cube::read_strict(SOLVED)?;
    assert_eq!(cube, Cube::SOLVED);
    for kind in KINDS {
        assert_eq!(cube.coordinate(kind)?, 0, "{kind:?}");
    }
    Ok(())
}

#[test]
fn coordinates_after_a_move() -> Result<(), Refusal> {
    let u = after("U")?;
    assert_eq!([u.coordinate(Kind::Cp)?, u.coordinate(Kind::UdEp)?, u.coordinate(Kind::EEp)?], [15120, 15120, 0]);
    let r = after("R")?;
    assert_eq!([r.coordinate(Kind::Co)?, r.coordinate(Kind::Eo)?, r.coordinate(Kind::ECombo)?], [410, 0, 139]);
    let f = after("F")?;
    assert_eq!([f.coordinate(Kind::Co)?, f.coordinate(Kind::Eo)?, f.coordinate(Kind::ECombo)?], [150, 404, 90]);
    Ok(())
}

#[test]
fn last_numbers_both_ways() -> Result<(), Refusal> {
    let last = [
        (Kind::Co, 2186, vec![2, 2, 2, 2, 2, 2, 2, 1]),
        (Kind::Eo, 2047, vec![1; 12]),
        (Kind::Cp, 40319, (0..8).rev().collect()),
    ];
    for (kind, number, places) in last {
        assert_eq!(arrangement(kind, number)?, places);
        assert_eq!(index(kind, &places)?, number);
    }
    Ok(())
}

#[test]
fn six_times_four_moves_is_solved() -> Result<(), Refusal> {
    let cube = after(&["R U R' U'"; 6].join(" "))?;
    assert!(cube.is_solved()? && cube.is_solvable()?);
    assert_eq!(cube.counts()?.corner_twists, 0);
    Ok(())
}

#[test]
fn picture_after_u() -> Result<(), Refusal> {
    let cube = Cube::SOLVED.apply_move(0)?;
    assert_eq!(cube.picture()?, AFTER_U);
    assert_eq!(Cube::read_plain(AFTER_U)?, cube);
    assert_eq!(Cube::SOLVED.mul(&cube)?, cube);
    Ok(())
}

#[test]
fn plain_fills_in_and_strict_refuses() -> Result<(), Refusal> {
    let number = |stickers: &[u8]| Cube::read_strict(stickers).map_err(Refusal::number);
    assert_eq!(Cube::read_plain(&[b'U'; 54])?, Cube::SOLVED);
    assert_eq!(number(&[b'U'; 54]), Err(15));
    for letter in [b'D', b'R'] {
        let changed = [&[letter], &SOLVED[1..]].concat();
        assert_eq!(Cube::read_plain(&changed)?, Cube::SOLVED);
        assert_eq!(number(&changed), Err(15));
    }
    let changed = [b"F", &SOLVED[1..]].concat();
    assert_eq!(number(&changed), Err(3));
    assert_eq!(Cube::read_plain(&changed).map_err(Refusal::number), Err(3));
    Ok(())
}

#[test]
fn the_judge_says_what_the_program_prints() -> Result<(), Refusal> {
    let input = [AFTER_U, b"\nU'\n"].concat();
    assert_eq!(judge(&input)?, "moves 1\nstrokes 1\nsolved yes\n");
    assert_eq!(judge(&[b'U'; 54])?, "refused 15\n");
    Ok(())
}
