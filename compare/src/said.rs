//! What standard error says of a case file, by SPEC 5.9: why the file, or its puzzle, is refused.

/// The line of the program on `sendai.bin` with these bytes, or none at all, where a number refuses it; nothing where none does.
pub fn line(bytes: Option<&[u8]>, refused: u8) -> String {
    let why = match (bytes, refused) {
        (None, _) => "No such file or directory (os error 2)".into(),
        (Some(_), 0) => return String::new(),
        (Some(bytes), 11) => flaw(bytes),
        (Some(bytes), number) => question(bytes, number),
    };
    format!("sendai: sendai.bin: {why}\n")
}

/// Why a puzzle is refused, by the question's number.
fn question(bytes: &[u8], number: u8) -> String {
    match number {
        1 => format!("a board of {} by {} cells is not within 1 to 32 a side", bytes[3], bytes[4]),
        3 => "a given wall names a border that the board does not have".into(),
        7 => "the given walls do not rise strictly".into(),
        8 => "there are not as many clues as rooms".into(),
        9 => "a clue is more than its room has cells".into(),
        _ => format!("no puzzle is refused {number}"),
    }
}

/// The first part of an unsound file, from the front, that is not as SPEC 5.1 to 5.3 have it.
fn flaw(bytes: &[u8]) -> String {
    let word = |at: usize| Some(u16::from_be_bytes([*bytes.get(at)?, *bytes.get(at + 1)?]) as usize);
    match bytes {
        _ if bytes.len() > 60_003 => return "it is longer than 60,003 bytes".into(),
        [version, high, low, _, _, ..] => {
            let (length, follow) = (usize::from(*high) << 8 | usize::from(*low), bytes.len() - 3);
            if *version != 1 {
                return format!("byte 0: the version is {version}, not 1");
            }
            if length != follow {
                return format!("byte 1: the length is {length}, and {follow} bytes follow it");
            }
        }
        _ => return format!("it has {} bytes, and version, length, height and width take 5", bytes.len()),
    }
    let mut at = 5;
    for list in ["given walls", "clues"] {
        let Some(count) = word(at) else { return cut_count(at, list) };
        if at + 2 + 2 * count > bytes.len() {
            return format!("byte {at}: the count of {list}, {count}, runs past the end of the file");
        }
        at += 2 + 2 * count;
    }
    let Some(count) = word(at) else { return cut_count(at, "calls") };
    flaw_of_calls(bytes, at + 2, count)
}

fn cut_count(at: usize, list: &str) -> String {
    format!("byte {at}: the count of {list} is cut off by the end of the file")
}

fn flaw_of_calls(bytes: &[u8], mut at: usize, count: usize) -> String {
    for _ in 0..count {
        let cut = |place| format!("byte {at}: the count of calls runs past the end of the file: it ends {place} this call");
        at += match bytes.get(at) {
            None => return cut("before"),
            Some(0 | 3) => 1,
            Some(1 | 2) if at + 3 <= bytes.len() => 3,
            Some(1 | 2) => return cut("in"),
            Some(kind) => return format!("byte {at}: the call is of kind {kind}, not 0 to 3"),
        };
    }
    format!("byte {at}: the last call ends before this byte, and the file does not")
}
