//! Each call with lent buffers once or twice through the linked library: that its arguments
//! arrive in order. What the calls answer on the whole is for `compare` to find.
#![cfg(feature = "linked")]

use sheets::lent::Exit;

/// `v:Int32` and a nameless `Struct{}`: 13 bytes.
const SHEET: [u8; 13] = [2, 2, 0, 4, 1, 0, b'v', 4, 0, 32, 0, 0, 0];
const LENGTH: usize = 12;
/// `v:Int32`, nullable.
const OTHER: [u8; 8] = [2, 1, 0, 5, 1, 0, b'v', 4];
/// `v:Int32`.
const PLAIN: [u8; 8] = [2, 1, 0, 4, 1, 0, b'v', 4];

fn exit(number: u8, place: usize, length: usize) -> Exit {
    Exit {
        number,
        place,
        length,
    }
}

/// Makes a call with buffers of these lengths, all bytes 170 at entry; the work buffer must
/// be clear at exit.
fn with(
    work: usize,
    answer: usize,
    call: impl FnOnce(&mut [u8], &mut [u8]) -> Exit,
) -> (Exit, Vec<u8>) {
    let (mut work, mut answer) = (vec![170; work], vec![170; answer]);
    let exit = call(&mut work, &mut answer);
    let left = if exit.number == 32 { 170 } else { 0 };
    assert!(work.iter().all(|&byte| byte == left), "{work:?}");
    (exit, answer)
}

#[test]
fn is_nested() {
    let sheet = &SHEET[..LENGTH];
    let got = with(4 * LENGTH, 3, |work, answer| {
        sheets::lent::is_nested(sheet, work, answer)
    });
    assert_eq!(got, (exit(0, 0, 2), vec![0, 1, 170]));
    let got = with(52, 2, |work, answer| {
        sheets::lent::is_nested(&SHEET, work, answer)
    });
    assert_eq!(got, (exit(8, 12, 0), vec![170, 170]));
    let got = with(51, 2, |work, answer| {
        sheets::lent::is_nested(&SHEET, work, answer)
    });
    assert_eq!(got, (exit(32, 0, 0), vec![170, 170]));
    for sheet in [PLAIN, OTHER] {
        let got = with(32, 1, |work, answer| {
            sheets::lent::is_nested(&sheet, work, answer)
        });
        assert_eq!(got, (exit(0, 0, 1), vec![0]));
    }
}

#[test]
fn index_of() {
    let sheet = &SHEET[..LENGTH];
    let find = |name: &[u8], room: usize| {
        with(50, room, |work, answer| {
            sheets::lent::index_of(sheet, name, work, answer)
        })
    };
    assert_eq!(find(b"v", 3), (exit(0, 0, 2), vec![0, 0, 170]));
    assert_eq!(find(b"", 2), (exit(0, 0, 2), vec![1, 0]));
    assert_eq!(find(b"w", 2), (exit(13, 0, 0), vec![170, 170]));
    assert_eq!(find(b"v", 1), (exit(31, 0, 0), vec![170]));
}

#[test]
fn flattened_fields() {
    let sheet = &SHEET[..LENGTH];
    let got = with(48, 7, |work, answer| {
        sheets::lent::flattened_fields(sheet, work, answer)
    });
    assert_eq!(got, (exit(0, 0, 6), vec![2, 0, 3, 0, 8, 0, 170]));
}

#[test]
fn filter() {
    let sheet = &SHEET[..LENGTH];
    let got = with(48, 8, |work, answer| {
        sheets::lent::filter(sheet, &[1], work, answer)
    });
    assert_eq!(got, (exit(0, 0, 8), PLAIN.to_vec()));
    let got = with(48, 8, |work, answer| {
        sheets::lent::filter(sheet, &[1, 1], work, answer)
    });
    assert_eq!(got, (exit(12, 0, 0), vec![170; 8]));
}

type Call = fn(&[u8], &[u8], &mut [u8], &mut [u8]) -> Exit;

fn ask(call: Call, one: &[u8], other: &[u8]) -> (Exit, Vec<u8>) {
    with(64, 1, |work, answer| call(one, other, work, answer))
}

#[test]
fn equality() {
    assert_eq!(
        ask(sheets::lent::equal, &PLAIN, &PLAIN),
        (exit(0, 0, 1), vec![1])
    );
    assert_eq!(
        ask(sheets::lent::equal, &PLAIN, &OTHER),
        (exit(0, 0, 1), vec![0])
    );
    assert_eq!(
        ask(sheets::lent::equal, &PLAIN, &PLAIN[..7]),
        (exit(1, 15, 0), vec![170])
    );
}

#[test]
fn verdicts() {
    let yes = (exit(0, 0, 1), vec![1]);
    let no = (exit(0, 0, 1), vec![0]);
    assert_eq!(ask(sheets::lent::equals_datatype, &PLAIN, &PLAIN), yes);
    assert_eq!(ask(sheets::lent::equals_datatype, &PLAIN, &OTHER), no);
    assert_eq!(ask(sheets::lent::contains, &OTHER, &PLAIN), yes);
    assert_eq!(ask(sheets::lent::contains, &PLAIN, &OTHER), no);
    assert_eq!(
        ask(sheets::lent::contains, &PLAIN, &PLAIN[..7]),
        (exit(1, 15, 0), vec![170])
    );
}

#[test]
fn numberings() {
    let number =
        |ids: &[u8], count: u16| with(0, 3, |_, answer| sheets::lent::try_new(ids, count, answer));
    assert_eq!(number(&[9, 5], 2), (exit(0, 0, 2), vec![9, 5, 170]));
    assert_eq!(number(&[9, 9], 3), (exit(7, 1, 0), vec![170; 3]));
    assert_eq!(number(&[9, 200], 3), (exit(6, 1, 0), vec![170; 3]));
    assert_eq!(number(&[9], 65_535), (exit(14, 0, 0), vec![170; 3]));
    let from = |count: u16| {
        with(0, 3, |_, answer| {
            sheets::lent::try_from_fields(count, answer)
        })
    };
    assert_eq!(from(2), (exit(0, 0, 2), vec![0, 1, 170]));
    assert_eq!(from(129), (exit(16, 0, 0), vec![170; 3]));
    assert_eq!(from(4), (exit(31, 0, 0), vec![170; 3]));
}

#[test]
fn projections() {
    let twice = [2, 2, 0, 4, 1, 0, b'v', 4, 4, 1, 0, b'v', 4];
    let list = [0; 4];
    let got = with(32, 13, |work, answer| {
        sheets::lent::project(&PLAIN, &list, work, answer)
    });
    assert_eq!(got, (exit(0, 0, 13), twice.to_vec()));
    let got = with(32, 13, |work, answer| {
        sheets::lent::project_strict(&PLAIN, &list, work, answer)
    });
    assert_eq!(got, (exit(11, 1, 0), vec![170; 13]));
}

#[test]
fn normalize() {
    // s:Struct{a:Struct{b:Int8}}
    let nested = [
        2, 1, 0, 4, 1, 0, b's', 32, 1, 0, 4, 1, 0, b'a', 32, 1, 0, 4, 1, 0, b'b', 2,
    ];
    let flat = [2, 1, 0, 4, 5, 0, b's', b'-', b'a', b'-', b'b', 2];
    let got = with(88, 12, |work, answer| {
        sheets::lent::normalize(&nested, b"-", 0, work, answer)
    });
    assert_eq!(got, (exit(0, 0, 12), flat.to_vec()));
    let once = [
        2, 1, 0, 4, 3, 0, b's', b'-', b'a', 32, 1, 0, 4, 1, 0, b'b', 2,
    ];
    let got = with(88, 17, |work, answer| {
        sheets::lent::normalize(&nested, b"-", 1, work, answer)
    });
    assert_eq!(got, (exit(0, 0, 17), once.to_vec()));
}

#[test]
fn merge() {
    let p3 = [2, 1, 0, 4, 1, 0, b'v', 0, 2, 1, 0, 4, 1, 0, b'v', 4];
    let got = with(64, 9, |work, answer| {
        sheets::lent::merge(&p3, work, answer, 0)
    });
    assert_eq!(got, (exit(0, 0, 8), [&OTHER[..], &[170]].concat()));
    let p5 = [2, 1, 0, 4, 1, 0, b'v', 0, 2, 1, 0, 6, 1, 0, b'v', 34, 2, 24];
    let got = with(72, 1, |work, answer| {
        sheets::lent::merge(&p5, work, answer, 0)
    });
    assert_eq!(got, (exit(20, 1, 0), vec![170]));
    // Every other mode is parked log first.
    let table = vec![2, 1, 0, 7, 1, 0, b'v', 34, 2, 24, 170];
    for mode in 1..=u8::MAX {
        let got = with(72, 11, |work, answer| {
            sheets::lent::merge(&p5, work, answer, mode)
        });
        assert_eq!(got, (exit(0, 0, 10), table.clone()), "{mode}");
    }
}
