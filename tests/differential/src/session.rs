//! The rehearsal program over any side's calls.

use crate::calls::Calls;
use crate::layout::{Raw, LONGEST};
use crate::reference::Answer;

const MOST_BYTES: usize = 65_536;

/// The printed text for an input.
pub fn run(input: &[u8], calls: &Calls) -> String {
    let input = &input[..input.len().min(MOST_BYTES)];
    // No members, r is 1.
    let mut table = Raw::new(1, Vec::new()).words();
    table.resize(LONGEST, 0);
    let mut printed = String::new();
    // A final line feed opens no further line.
    let text = input.strip_suffix(b"\n").unwrap_or(input);
    if input.is_empty() {
        return printed;
    }
    for (i, line) in text.split(|&b| b == b'\n').enumerate() {
        let said = match read_line(line) {
            None => "bad".to_string(),
            Some((word, numbers)) => call(&mut table, calls, word, &numbers),
        };
        printed.push_str(&format!("{} {}\n", i + 1, said));
    }
    printed
}

/// The word and numbers of a readable line.
fn read_line(line: &[u8]) -> Option<(&str, Vec<u32>)> {
    let mut parts = line.split(|&b| b == b' ');
    let word = std::str::from_utf8(parts.next()?).ok()?;
    let mut numbers = Vec::new();
    for part in parts {
        numbers.push(read_number(part)?);
    }
    let readable = match word {
        "new" => !numbers.is_empty(),
        "join" | "rect" | "find" => numbers.len() == 2,
        "stab" | "out" | "drop" => numbers.len() == 1,
        "audit" => numbers.is_empty(),
        _ => false,
    };
    readable.then_some((word, numbers))
}

/// 1 to 10 digits and at most 4294967295.
fn read_number(digits: &[u8]) -> Option<u32> {
    if digits.is_empty() || digits.len() > 10 {
        return None;
    }
    let mut number: u64 = 0;
    for &d in digits {
        if !d.is_ascii_digit() {
            return None;
        }
        number = number * 10 + (d - b'0') as u64;
    }
    u32::try_from(number).ok()
}

fn call(table: &mut [u32], calls: &Calls, word: &str, numbers: &[u32]) -> String {
    let answer: Answer = match word {
        "new" => (calls.new)(table, numbers[0], &numbers[1..]),
        "join" => (calls.join)(table, numbers[0], numbers[1]),
        "stab" => (calls.stabilize)(table, numbers[0]),
        "rect" => (calls.rectify)(table, numbers[0], numbers[1]),
        "out" => (calls.leave)(table, numbers[0]),
        "drop" => (calls.fail)(table, numbers[0]),
        "find" => (calls.lookup)(table, numbers[0], numbers[1]),
        _ => (calls.audit)(table),
    };
    let v = answer.values;
    if answer.number == 8 {
        return format!("{word} no 8 {}", v[0]);
    }
    if answer.number != 0 {
        return format!("{word} no {}", answer.number);
    }
    let fields = match word {
        "stab" => match v[0] {
            0 => "again".to_string(),
            1 => format!("look {}", v[1]),
            _ => format!("done {}", v[1]),
        },
        "rect" => (if v[0] == 1 { "new" } else { "same" }).to_string(),
        "find" | "audit" => format!("{} {} {} {}", v[0], v[1], v[2], v[3]),
        _ => v[0].to_string(),
    };
    format!("{word} ok {fields}")
}
