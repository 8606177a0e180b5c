//! Damages of a text: bytes, words, numbers, lines; and texts at the limits.

use bench::plain::{CHOICES, TEXT};

use crate::rng::Rng;

/// One damage, sometimes a few.
pub fn spoil(rng: &mut Rng, text: &mut Vec<u8>) {
    loop {
        match rng.below(14) {
            0 => bytes(rng, text),
            1 => {
                text.truncate(rng.below(text.len() + 1));
            }
            2 => {
                text.pop();
            }
            3..=6 => number(rng, text),
            7..=8 => word(rng, text),
            _ => lines(rng, text),
        }
        if rng.percent(80) {
            break;
        }
    }
}

/// A byte is changed, put in or taken out.
fn bytes(rng: &mut Rng, text: &mut Vec<u8>) {
    let byte = if rng.percent(50) { rng.any() as u8 } else { rng.pick(b" =,:-+0123456789\n\r\tabz") };
    let place = rng.below(text.len() + 1);
    match rng.below(3) {
        0 => text.insert(place, byte),
        _ if place == text.len() => {}
        1 => text[place] = byte,
        _ => {
            text.remove(place);
        }
    }
}

/// The part of the text from one place to another is replaced.
fn replace(text: &mut Vec<u8>, from: usize, to: usize, by: &[u8]) {
    text.splice(from..to, by.iter().copied());
}

/// A number becomes another, at a bound, too long, or none.
fn number(rng: &mut Rng, text: &mut Vec<u8>) {
    let starts: Vec<usize> = (1..text.len()).filter(|&at| text[at].is_ascii_digit() && !text[at - 1].is_ascii_digit()).collect();
    let Some(from) = rng.maybe_pick(&starts) else {
        return;
    };
    let length = text[from..].iter().take_while(|byte| byte.is_ascii_digit()).count();
    let old: u64 = std::str::from_utf8(&text[from..from + length]).ok().and_then(|digits| digits.parse().ok()).unwrap_or(0);
    let new = match rng.below(12) {
        0..=2 => old.wrapping_add(1).to_string(),
        3 => old.saturating_sub(1).to_string(),
        4 => format!("0{old}"),
        5 => format!("-{old}"),
        6 => rng.pick(&["-0", "-", "", "+1", "1.0", "none", "01", "-01"]).into(),
        7 => rng.pick(&["0", "1", "2", "16", "17", "64", "65", "255", "256", "1024", "1025", "4096", "65535", "65536"]).into(),
        8 => rng.pick(&["2147483647", "2147483648", "-2147483648", "-2147483649", "4294967296", "18446744073709551616"]).into(),
        9 => "9".repeat(rng.pick(&[11, 20, 40, 1000])),
        _ => rng.below(9).to_string(),
    };
    replace(text, from, from + length, new.as_bytes());
}

const WORDS: [&str; 44] = [
    "event=", "machine=", "var=", "expr=", "stmt=", "action=", "state=", "step=", "call=", "act=", "start=", "choice=", "type=", "of=", "kind=",
    "a=", "b=", "val=", "init=", "to=", "arg=", "first=", "second=", "cond=", "then=", "else=", "body=", "do=", "defer=", "entry=", "exit=", "on=",
    "bits=", "void", "bool", "int", "id", "none", "seq", "new", "add", "this", "1:1,2:2", "2,1",
];

/// A word becomes another.
fn word(rng: &mut Rng, text: &mut Vec<u8>) {
    let starts: Vec<usize> = (1..text.len()).filter(|&at| text[at].is_ascii_lowercase() && !text[at - 1].is_ascii_lowercase()).collect();
    let Some(from) = rng.maybe_pick(&starts) else {
        return;
    };
    let key = text[from..].iter().take_while(|byte| byte.is_ascii_lowercase()).count();
    let length = key + usize::from(text.get(from + key) == Some(&b'='));
    replace(text, from, from + length, rng.pick(&WORDS).as_bytes());
}

/// A line is dropped, doubled, moved, put in.
fn lines(rng: &mut Rng, text: &mut Vec<u8>) {
    let mut lines: Vec<&[u8]> = text.split_inclusive(|&byte| byte == b'\n').collect();
    if lines.is_empty() {
        return;
    }
    let (one, other) = (rng.below(lines.len()), rng.below(lines.len()));
    match rng.below(7) {
        0 => {
            lines.remove(one);
        }
        1 => lines.insert(one, lines[one]),
        2 => lines.swap(one, other),
        3 => lines.insert(other, lines[one]),
        4 => lines.insert(one, b"\n"),
        5 => lines.retain(|line| !line.starts_with(b"start")),
        _ => lines.insert(
            one,
            rng.pick(&[b"start=1\n" as &[u8], b"choice=1 bits=0\n", b"choice=0\n", b"choice=1 bits=256\n", b"choice=65536\n", b"machine=1\n"]),
        ),
    }
    *text = lines.concat();
}

/// Choice lines behind a text until it has exactly 60,000 bytes, or more: lines of 18 bytes, then of 9 and 10. A longer program stays as it is.
pub fn full_text(rng: &mut Rng, text: &mut Vec<u8>) {
    let goal = TEXT + rng.pick(&[0, 0, 0, 1, 1, 50_000]);
    while text.len() + 90 <= goal {
        text.extend_from_slice(b"choice=1 bits=255\n");
    }
    let left = goal.saturating_sub(text.len());
    if left >= 72 {
        let tens = left % 9;
        text.extend(b"choice=10\n".repeat(tens));
        text.extend(b"choice=1\n".repeat((left - 10 * tens) / 9));
    }
}

/// So many choice lines behind a text that they are 4,096, or one more.
pub fn many_choices(rng: &mut Rng, text: &mut Vec<u8>) {
    let there = text.split(|&byte| byte == b'\n').filter(|line| line.starts_with(b"choice")).count();
    for _ in there..CHOICES + rng.below(2) {
        text.extend_from_slice(b"choice=1\n");
    }
}

/// Any bytes, or bytes as texts have them, or none.
pub fn any_text(rng: &mut Rng) -> Vec<u8> {
    let length = rng.below(300);
    match rng.below(3) {
        0 => Vec::new(),
        1 => (0..length).map(|_| rng.any() as u8).collect(),
        _ => (0..length).flat_map(|_| if rng.percent(30) { b"\n".to_vec() } else { rng.pick(&WORDS).as_bytes().to_vec() }).collect(),
    }
}
