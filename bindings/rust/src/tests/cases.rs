//! Case files.
use crate::{sys, Case, Kind, Refusal, MAX_LINE};

/// The scope document's file: 1 by 3, no given wall, no clue; a Wall, Connected, ask, undo.
const FILE: [u8; 21] = [1, 0, 0x12, 1, 3, 0, 0, 0, 1, 0xff, 0xff, 0, 4, 2, 0, 0, 1, 0, 1, 3, 0];

/// The file with one byte changed.
fn changed(place: usize, byte: u8) -> [u8; 21] {
    let mut file = FILE;
    file[place] = byte;
    file
}

#[test]
fn call_by_call() {
    let mut case = Case::open(&FILE).unwrap();
    let mut out = vec![0; MAX_LINE];
    for (left, line) in [(3, "decided\n"), (2, "decided\n"), (1, "shape: 1 2\n"), (0, "undone\n"), (0, "")] {
        assert_eq!(case.run(1, &mut out).unwrap(), line.as_bytes());
        assert_eq!(case.left(), left);
    }
    assert_eq!(case.puzzle().ledger().collect::<Vec<_>>(), [(0, true)]);
    assert_eq!(case.puzzle().kind(), Kind::Translates);
}

#[test]
fn a_buffer_one_short() {
    let mut case = Case::open(&FILE).unwrap();
    let mut out = vec![7; 4 * MAX_LINE];
    assert_eq!(case.run(9, &mut out[1..]), Err(Refusal::ShortBuffer));
    assert_eq!((case.left(), case.puzzle().ledger().count()), (4, 0));
    assert!(out.iter().all(|&byte| byte == 7));
    assert_eq!(case.run(9, &mut out).unwrap(), b"decided\ndecided\nshape: 1 2\nundone\n");
    assert!(out[34..].iter().all(|&byte| byte == 7));
}

#[test]
fn refused_files() {
    let refused = |file: &[u8]| Case::open(file).map(drop).unwrap_err();
    assert_eq!(refused(&[]), Refusal::File);
    assert_eq!(refused(&FILE[..20]), Refusal::File);
    assert_eq!(refused(&changed(0, 2)), Refusal::File);
    assert_eq!(refused(&changed(20, 4)), Refusal::File);
    assert_eq!(refused(&changed(3, 0)), Refusal::Sizes);
    assert_eq!(refused(&changed(4, 33)), Refusal::Sizes);
    assert_eq!(refused(&changed(9, 0)), Refusal::ClueValue);
    // a puzzle that is refused leaves zeros
    let file = changed(9, 0);
    // SAFETY: the slice lives through the call.
    let case = unsafe { sys::sendai_case_open(file.as_ptr(), file.len()) };
    assert_eq!((case.at, case.count, case.puzzle.clues_len), (0, 0, 0));
}

/// The file's readers, and a line.
#[test]
fn readers() {
    let (at, length) = (FILE.as_ptr(), FILE.len());
    // SAFETY (each call): the slices live through the call, and none that is written overlaps another.
    let parts = unsafe { sys::sendai_file_decode(at, length) };
    let lists = (parts.walls_at, parts.walls_count, parts.clues_at, parts.clues_count, parts.calls_at, parts.calls_count);
    assert_eq!((parts.code, parts.height, parts.width, lists), (0, 1, 3, (7, 0, 9, 1, 13, 4)));
    assert_eq!(unsafe { sys::sendai_file_decode(at, length - 1) }.code, 11);

    assert_eq!(unsafe { sys::sendai_file_number(at, length, 9, 1, 0) }, 65535);
    assert_eq!(unsafe { sys::sendai_file_number(at, length, 9, 1, 1) }, 0);
    let mut numbers = [7u16; 3];
    let told = unsafe { sys::sendai_file_numbers(at, length, 13, 2, numbers.as_mut_ptr(), 1) };
    assert_eq!((told, numbers), (sys::Answer { code: 6, fault: false, length: 0 }, [7; 3]));
    let told = unsafe { sys::sendai_file_numbers(at, length, 13, 2, numbers.as_mut_ptr(), 3) };
    assert_eq!((told.code, told.length, numbers), (0, 2, [0x0200, 0x0001, 7]));

    let call = |place| unsafe { sys::sendai_file_call(at, length, place) };
    assert_eq!(call(13), sys::FileCall { code: 0, kind: 2, border: 0, behind: 16 });
    assert_eq!(call(16), sys::FileCall { code: 0, kind: 1, border: 1, behind: 19 });
    assert_eq!(call(19), sys::FileCall { code: 0, kind: 3, border: 0, behind: 20 });
    assert_eq!(call(20), sys::FileCall { code: 0, kind: 0, border: 0, behind: 21 });
    assert_eq!(call(21), sys::FileCall { code: 11, kind: 0, border: 0, behind: 0 });

    let mut line = [b'-'; 39];
    let entries = [1u16, 2];
    let told = unsafe { sys::sendai_line(4, 12, entries.as_ptr(), 2, line.as_mut_ptr(), 38) };
    assert_eq!((told.code, told.length, &line), (6, 0, &[b'-'; 39]));
    let told = unsafe { sys::sendai_line(4, 12, entries.as_ptr(), 2, line.as_mut_ptr(), 39) };
    assert_eq!((told.code, &line[..told.length]), (0, &b"room 12: 1 2\n"[..]));
    let told = unsafe { sys::sendai_line(5, 4, entries.as_ptr(), 0, line.as_mut_ptr(), 39) };
    assert_eq!((told.code, &line[..told.length]), (0, &b"refused 4\n"[..]));
}
