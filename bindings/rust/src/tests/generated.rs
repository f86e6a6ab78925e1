//! Case files from a seed: the bytes, the buffer, the refusals; that each file opens; and beside a generator by the words of request A.2.
use super::{Drawn, UNTOUCHED_BYTE};
use crate::{generate_case, Case, Refusal, MAX_FILE, MAX_LINE};
use std::collections::BTreeSet;

/// What a file is made from: seed, height, width, count of calls.
type Load = (u32, usize, usize, usize);

/// The answer with a buffer of so many bytes and such content, and the buffer with three bytes behind it that were not lent.
fn lent((seed, height, width, count): Load, bytes: usize, content: u8) -> (Result<usize, Refusal>, Vec<u8>) {
    let mut buffer = vec![content; bytes + 3];
    let told = generate_case(seed, height, width, count, &mut buffer[..bytes]).map(<[u8]>::len);
    (told, buffer)
}

/// A load that must be refused so and leave every byte as it was.
fn refused(refusal: Refusal, load: Load, bytes: usize) {
    let (told, buffer) = lent(load, bytes, UNTOUCHED_BYTE);
    assert_eq!(told, Err(refusal), "{load:?}");
    assert!(buffer == vec![UNTOUCHED_BYTE; bytes + 3], "{load:?}");
}

/// The file of a load: the same in the longest buffer and in one just long enough, whatever they held, with all other bytes as they
/// were; refused with a buffer one byte short.
fn generated(load: Load) -> Vec<u8> {
    let (told, mut file) = lent(load, MAX_FILE, UNTOUCHED_BYTE);
    file.truncate(told.unwrap());
    for (bytes, content) in [(MAX_FILE, UNTOUCHED_BYTE), (MAX_FILE, 3), (file.len(), UNTOUCHED_BYTE), (file.len(), 0xff)] {
        let (told, buffer) = lent(load, bytes, content);
        assert_eq!(told, Ok(file.len()), "{load:?}");
        assert!(buffer == [&file[..], &vec![content; buffer.len() - file.len()]].concat(), "{load:?}");
    }
    refused(Refusal::ShortBuffer, load, file.len() - 1);
    file
}

/// The calls that a seed makes, without end, by the words of the request.
fn calls(seed: u32, borders: usize) -> impl Iterator<Item = Vec<u8>> {
    let mut state = seed;
    let mut replaced = move || {
        state ^= state << 13;
        state ^= state >> 17;
        state ^= state << 5;
        state
    };
    std::iter::repeat_with(move || match replaced() % 4 {
        1 | 2 if borders == 0 => vec![3],
        kind @ (1 | 2) => {
            let border = replaced() as usize % borders;
            vec![kind as u8, (border / 256) as u8, (border % 256) as u8]
        }
        kind => vec![kind as u8],
    })
}

/// How many borders a board has.
fn borders(height: usize, width: usize) -> usize {
    height * (width - 1) + (height - 1) * width
}

/// The file of a load with these calls.
fn filed((seed, height, width, count): Load) -> Vec<u8> {
    let calls = calls(seed, borders(height, width)).take(count).collect::<Vec<_>>().concat();
    let word = |number: usize| [(number / 256) as u8, (number % 256) as u8];
    let size = [height as u8, width as u8];
    [&[1], &word(10 + calls.len())[..], &size, &word(0), &word(1), &word(65535), &word(count), &calls].concat()
}

/// Seeds with few and with many bits, and drawn ones.
fn seeds(drawn: &mut Drawn, count: usize) -> Vec<u32> {
    let mut half = || drawn.below(1 << 16) as u32;
    let drawn = (0..count).map(|_| (half() << 16 | half()).max(1));
    [1, 2, 9, 16, 1 << 31, u32::MAX].into_iter().chain(drawn).collect()
}

#[test]
fn bytes() {
    assert_eq!(generated((7, 3, 2, 0)), [1, 0, 10, 3, 2, 0, 0, 0, 1, 0xff, 0xff, 0, 0]);
    assert_eq!(generated((16, 1, 1, 1)), [1, 0, 11, 1, 1, 0, 0, 0, 1, 0xff, 0xff, 0, 1, 3]);
    assert_eq!(generated((9, 1, 1, 2)), [1, 0, 12, 1, 1, 0, 0, 0, 1, 0xff, 0xff, 0, 2, 3, 3]);
    assert_eq!(generated((1, 1, 2, 2)), [1, 0, 16, 1, 2, 0, 0, 0, 1, 0xff, 0xff, 0, 2, 1, 0, 0, 1, 0, 0]);
    assert_eq!(generated((20, 2, 3, 4)), [1, 0, 18, 2, 3, 0, 0, 0, 1, 0xff, 0xff, 0, 4, 1, 0, 3, 0, 2, 0, 5, 3]);
    // 1 is replaced by 270369, which is kind 1, and that by 67634689, which is 129 modulo the 1,984 borders
    assert_eq!(generated((1, 32, 32, 1)), [1, 0, 13, 32, 32, 0, 0, 0, 1, 0xff, 0xff, 0, 1, 1, 0, 129]);
}

#[test]
fn refusals() {
    for count in [0, 1, 59_990, usize::MAX] {
        // some of these are 1 in fewer bits
        for side in [0, 33, (1 << 8) + 1, (1 << 16) + 1, (1 << 32) + 1, usize::MAX] {
            for (height, width) in [(side, 1), (32, side), (side, side)] {
                refused(Refusal::Sizes, (1, height, width, count), MAX_FILE);
                refused(Refusal::Sizes, (0, height, width, count), 0);
            }
        }
        for (height, width) in [(1, 1), (1, 32), (32, 1), (32, 32)] {
            refused(Refusal::ZeroSeed, (0, height, width, count), MAX_FILE);
            refused(Refusal::ZeroSeed, (0, height, width, count), 0);
            refused(Refusal::ShortBuffer, (1, height, width, count), 12);
        }
    }
}

/// As many calls as a file has place for, and one more, which is refused whatever the buffer.
#[test]
fn longest_files() {
    assert_eq!(generated((1, 1, 1, 59_990)).len(), MAX_FILE);
    let mut lengths = BTreeSet::new();
    for (height, width) in [(1, 1), (1, 2), (5, 7), (32, 32)] {
        for seed in seeds(&mut Drawn(4), 6) {
            let mut left = MAX_FILE - 13;
            let fits = |call: &Vec<u8>| left.checked_sub(call.len()).map(|rest| left = rest).is_some();
            let most = calls(seed, borders(height, width)).take_while(fits).count();
            let longest = generated((seed, height, width, most));
            assert_eq!(longest.len(), MAX_FILE - left);
            assert!(longest == filed((seed, height, width, most)));
            lengths.insert(longest.len());
            for count in [most + 1, 1 << 16, (1 << 32) + 1, usize::MAX] {
                refused(Refusal::ShortBuffer, (seed, height, width, count), MAX_FILE + 3);
            }
        }
    }
    assert!(lengths.into_iter().eq(MAX_FILE - 2..=MAX_FILE), "a decide has three bytes: up to two are left");
}

#[test]
fn by_the_words_of_the_request() {
    let mut drawn = Drawn(5);
    for cells in 0..32 * 32 {
        let (height, width) = (1 + cells / 32, 1 + cells % 32);
        let count = drawn.below(300);
        for seed in seeds(&mut drawn, 2) {
            let load = (seed, height, width, count);
            assert_eq!(generated(load), filed(load), "{load:?}");
        }
    }
}

/// Every file opens, with as many calls as were asked for, and none of them names a border that is missing.
#[test]
fn files_open() {
    let (mut drawn, mut out) = (Drawn(6), vec![0; 16 * MAX_LINE]);
    for (height, width) in [(1, 1), (1, 2), (2, 1), (5, 7), (32, 32)] {
        for seed in seeds(&mut drawn, 10) {
            let (count, mut lines) = (drawn.below(200), 0);
            let file = generated((seed, height, width, count));
            let mut case = Case::open(&file).unwrap();
            assert_eq!((case.puzzle().height(), case.puzzle().width(), case.left()), (height, width, count));
            while case.left() > 0 {
                for line in case.run(16, &mut out).unwrap().split_inclusive(|&byte| byte == b'\n') {
                    assert_ne!(line, b"refused 3\n", "seed {seed}, {height} by {width}");
                    lines += 1;
                }
            }
            assert_eq!(lines, count);
        }
    }
}
