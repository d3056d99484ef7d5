//! Document 01's worked cases, but for the program's, through the safe functions.
use lookahead::lent::{self, Lent, ROOM, TEXT_ROOM};
use lookahead::{Mode, Refusal, Table};

const MODES: [Mode; 2] = [Mode::Archive, Mode::Intake];

fn table(prod0: i32, k: usize, rows: &[i32]) -> Table {
    Table::from_numbers(prod0, k, rows.to_vec()).unwrap()
}

fn a_and_b() -> (Table, Table) {
    let a = Table::build(1, &[[5], [7]]).unwrap();
    let b = Table::build(2, &[[5, 6]]).unwrap();
    (a, b)
}

/// Archive B with A.
fn t() -> Table {
    table(-1, 2, &[0, 5, 1, 1, 0, 7, 3, 1, 1, 6, 2, 2])
}

/// The production for two tokens, with the same k for the stream.
fn production(mode: Mode, t: &Table, tokens: [u16; 2]) -> Result<u16, Refusal> {
    t.predict(mode, 2, &tokens).map(|said| said.production)
}

#[test]
fn built() {
    let mut out = [7; ROOM];
    let empty = lent::build(4, &[], &[], &mut out).unwrap();
    assert_eq!((4, 0), (empty.prod0, empty.k));
    assert_eq!((0, 1), (empty.rows, empty.states));
    assert_eq!([7; ROOM], out);
    let (a, _) = a_and_b();
    assert_eq!(table(-1, 1, &[0, 5, 1, 1, 0, 7, 2, 1]), a);
}

#[test]
fn built_up_to_the_limits() {
    assert_eq!(16, Table::build(1, &[[5; 16]]).unwrap().k());
    assert_eq!(Err(Refusal::Range), Table::build(1, &[[5; 17]]));
    let strings: Vec<[u16; 16]> = (0..64).map(|first| [first; 16]).collect();
    assert_eq!(Err(Refusal::Full), Table::build(1, &strings));
    let mut strings: Vec<&[u16]> = strings.iter().map(|s| &s[..]).collect();
    strings[63] = &strings[63][..15];
    assert_eq!(1_023, Table::build(1, &strings).unwrap().rows().len());
}

#[test]
fn united() {
    let (a, b) = a_and_b();
    let archive = table(-1, 1, &[0, 5, 1, -1, 0, 7, 2, 1, 1, 6, 3, 2]);
    let none = production(Mode::Archive, &archive, [5, 6]);
    assert_eq!(Err(Refusal::None), none);
    assert_eq!(Ok(archive), a.unite(Mode::Archive, &b));
    assert_eq!(Ok(t()), b.unite(Mode::Archive, &a));
    let intake = table(-1, 2, &[0, 5, 1, 1, 0, 7, 2, 1, 1, 6, 3, 2]);
    assert_eq!(Ok(intake), a.unite(Mode::Intake, &b));
}

#[test]
fn clashes() {
    let clash = Err(Refusal::Clash(1, 2));
    let empty = |production| Table::build(production, &[[]]).unwrap();
    let archive = empty(1).unite(Mode::Archive, &empty(2)).unwrap();
    assert_eq!(Some(1), archive.prod0());
    assert_eq!(clash, empty(1).unite(Mode::Intake, &empty(2)));
    let five = |production| Table::build(production, &[[5]]).unwrap();
    for mode in MODES {
        assert_eq!(clash, five(1).unite(mode, &five(2)));
    }
}

#[test]
fn predicted_and_explained() {
    let (a, b) = a_and_b();
    let both = a.unite(Mode::Intake, &b).unwrap();
    for (tokens, answer) in [([5, 6], (2, 2)), ([5, 9], (1, 1)), ([9, 5], (1, 1))] {
        let said = both.predict(Mode::Intake, 2, &tokens).unwrap();
        assert_eq!(answer, said.into());
    }
    let (matched, rows) = both.explain(&[5, 9]);
    assert_eq!((1, &[1, 6, 3, 2][..]), (matched, rows.numbers()));
    let (matched, rows) = both.explain(&[5]);
    assert!(matched == 1 && rows.is_empty());
    let none = both.predict(Mode::Intake, 2, &[9, 9]);
    assert_eq!(Err(Refusal::None), none);
    let short = both.predict(Mode::Intake, 2, &[5]);
    assert_eq!(Err(Refusal::Short), short);
    let mismatch = both.predict(Mode::Intake, 1, &[5, 6]);
    assert_eq!(Err(Refusal::Mismatch), mismatch);
}

#[test]
fn the_root() {
    let t = table(3, 2, &[0, 5, 1, -1, 1, 6, 2, 4]);
    let root = t.predict(Mode::Archive, 2, &[5, 9]);
    assert_eq!(Err(Refusal::Root), root);
    let said = t.predict(Mode::Intake, 2, &[5, 9]).unwrap();
    assert_eq!((3, 1), said.into());
    for mode in MODES {
        assert_eq!(Ok(3), production(mode, &t, [9, 9]));
    }
}

#[test]
fn shrunk() {
    let old = t().shrink(Mode::Archive).unwrap();
    assert_eq!(table(-1, 2, &[0, 5, 1, 1, 0, 7, 1, 1]), old.table);
    assert_eq!(3, old.states);
    assert_eq!(Ok(1), production(Mode::Archive, &old.table, [5, 6]));
    let new = t().shrink(Mode::Intake).unwrap();
    assert_eq!((t(), 4), (new.table, new.states));

    let t = table(1, 1, &[0, 3, 1, 1, 0, 5, 2, 2]);
    let old = t.shrink(Mode::Archive).unwrap();
    assert_eq!((2, 0), (old.states, old.table.rows().len()));
    let new = t.shrink(Mode::Intake).unwrap();
    assert_eq!((3, 2), (new.states, new.table.rows().len()));
}

#[test]
fn shrunk_twice() {
    let t = table(-1, 2, &[0, 4, 1, 7, 0, 6, 2, -1, 2, 4, 3, 7]);
    for mode in MODES {
        let once = t.shrink(mode).unwrap();
        let rows = [0, 4, 1, 7, 0, 6, 2, -1, 2, 4, 1, 7];
        assert_eq!((table(-1, 2, &rows), 3), (once.table.clone(), once.states));
        assert_eq!(Err(Refusal::Shape), once.table.shrink(mode));
    }
    let not_ruled = table(-1, 1, &[0, 5, 0, 1]);
    assert_eq!(Err(Refusal::Shape), not_ruled.shrink(Mode::Intake));
}

#[test]
fn refusals_of_lent_slices() {
    let row = [0, 5, 1, 1];
    let t = |prod0, rows| Lent { prod0, k: 1, rows };
    assert_eq!(Err(Refusal::Length), lent::check(t(-1, &row[..3])));
    assert_eq!(Err(Refusal::Range), lent::check(t(-2, &row)));
    assert_eq!(Err(Refusal::Range), lent::explain(t(-2, &row), &[5]));
    let mut bytes = vec![7; TEXT_ROOM];
    let short = lent::text_out(t(-1, &row), &mut bytes[1..]);
    assert_eq!(Err(Refusal::Length), short);
    assert!(bytes.iter().all(|&b| b == 7));
    let mut out = [7; ROOM];
    let (f, s) = (t(1, &row), t(2, &row));
    let clash = lent::unite(Mode::Intake, f, s, &mut out);
    assert_eq!(Err(Refusal::Clash(1, 2)), clash);
    assert_eq!(
        Err(Refusal::Length),
        lent::intake(&[], &[], &[], &[], &mut out)
    );
    assert_eq!([7; ROOM], out);
}
