//! Refusals, by their numbers and as they are shown.
use tsunghawi::*;

/// The solved cube with one byte changed.
fn with(at: usize, byte: u8) -> Cube {
    let mut bytes = *Cube::SOLVED.as_bytes();
    bytes[at] = byte;
    Cube::from_bytes(bytes)
}

fn number<T>(answer: Result<T, Refusal>) -> Option<u8> {
    answer.err().map(Refusal::number)
}

#[test]
fn of_stickers() {
    assert_eq!(number(Cube::read_strict(b"U")), Some(1));
    assert_eq!(number(Cube::read_strict(&[b'X'; 54])), Some(2));
    assert_eq!(number(Cube::read_plain(b"")), Some(1));
}

#[test]
fn of_cubes() {
    for (cube, wanted) in [(with(0, 8), 4), (with(16, 12), 5), (with(8, 3), 6), (with(28, 2), 6)] {
        assert_eq!(number(cube.is_solved()), Some(wanted));
        assert_eq!(number(cube.picture()), Some(wanted));
        assert_eq!(number(cube.mul(&Cube::SOLVED)), Some(wanted));
        assert_eq!(number(Cube::SOLVED.mul(&cube)), Some(wanted));
        assert_eq!(number(cube.apply_move(18)), Some(wanted));
        assert_eq!(number(cube.counts()), Some(wanted));
    }
    let twisted = with(8, 1);
    assert_eq!(twisted.is_solvable(), Ok(false));
    assert_eq!(number(twisted.picture()), Some(6));
}

#[test]
fn of_moves() {
    assert_eq!(number(Cube::SOLVED.apply_moves(&[0, 18])), Some(7));
    assert_eq!(number(parse_moves("U  D")), Some(7));
    assert_eq!(number(format_moves(&[18])), Some(7));
    assert_eq!(number(get_inverse(18)), Some(7));
    assert_eq!((get_inverse(0), is_inverse(0, 3), is_inverse(3, 0)), (Ok(2), Ok(true), Ok(false)));
    assert_eq!((is_same_layer(0, 2), is_same_layer(0, 3)), (Ok(true), Ok(false)));
    assert_eq!((is_move_available(0, 3), is_move_available(3, 0)), (Ok(true), Ok(false)));
    assert_eq!((parse_moves(""), format_moves(&[])), (Ok(vec![]), Ok(String::new())));
    assert_eq!(format_moves(&parse_moves("U U2 U' B'").unwrap()).as_deref(), Ok("U U2 U' B'"));
}

#[test]
fn of_coordinates() {
    assert_eq!(number(arrangement(Kind::Co, 2187)), Some(8));
    assert_eq!(number(arrangement(Kind::Cp, 40320)), Some(8));
    assert_eq!(number(index(Kind::Cp, &[0; 8])), Some(6));
    assert_eq!(number(index(Kind::Cp, &[0; 7])), Some(10));
}

#[test]
fn of_tables() {
    let mut table = vec![7; 240];
    assert_eq!(number(move_table(6, &mut table)), Some(10));
    assert_eq!(number(move_table(0, &mut table)), Some(10));
    assert_eq!(table, [7; 240], "a refusal writes nothing");
    assert_eq!(move_table(5, &mut table), Ok(()));
    assert_eq!(number(prune_table(6, &table, &table, &mut [0; 9])), Some(10));
    assert_eq!(number(Tables::from_blocks(vec![], vec![]).check()), Some(10));
}

#[test]
fn of_pairs() {
    let mut table = [9; 2];
    assert_eq!(number(pairs_table(&[1, 0], &[0, 0], &mut table, [2, 1], 1)), Some(10));
    assert_eq!(number(pairs_table(&[2, 0], &[0], &mut table, [2, 1], 1)), Some(11));
    assert_eq!(table, [9; 2], "a refusal writes nothing");
    assert_eq!(number(pairs_table(&[0, 1], &[0], &mut table, [2, 1], 1)), Some(14));
    assert_eq!(table, [0, 255], "but for 14");
    assert_eq!(pairs_table(&[1, 0], &[0], &mut table, [2, 1], 1), Ok(()));
    assert_eq!(table, [0, 1]);
}

#[test]
fn shown() {
    assert_eq!(Cube::read_strict(b"U").unwrap_err().to_string(), "refused 1: not 54 stickers");
    assert_eq!(with(0, 8).is_solved().unwrap_err().bad_entry(), None);
}
