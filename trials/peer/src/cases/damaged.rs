//! Texts that break the sheet's grammar, and a few that only nearly do.
//!
//! The first seeds go through a list, one way of breaking each; the others
//! draw one or two kinds of damage. One in eight is left whole.

use super::build::Draft;
use super::draw::Draw;

/// Damage of a fixed form: the place of the first text, and what replaces it.
const CHANGES: &[(&str, &str)] = &[
    ("steps=7", "steps=07"),
    ("steps=7", "steps=00"),
    ("steps=7", "steps=0"),
    ("steps=7", "steps="),
    ("steps=7", "steps=+7"),
    ("steps=7", "steps=-7"),
    ("steps=7", "steps= 7"),
    ("steps=7", "steps=7 "),
    ("steps=7", " steps=7"),
    ("steps=7", "steps =7"),
    ("steps=7", "Steps=7"),
    ("steps=7", "STEPS=7"),
    ("steps=7", "steps:7"),
    ("steps=7", "steps=7\r"),
    ("steps=7", "steps=7\t"),
    ("steps=7", "steps=7.0"),
    ("steps=7", "steps=7\0"),
    ("steps=7", "\0steps=7"),
    ("steps=7", "steps=0x7"),
    ("steps=7", "steps=A"),
    ("steps=7", "steps=1000000"),
    ("steps=7", "steps=1000001"),
    ("steps=7", "steps=0999999"),
    ("steps=7", "steps=999999"),
    ("steps=7", "steps=9999999"),
    ("steps=7", "steps=10000000"),
    ("steps=7", "steps=4294967296"),
    ("steps=7", "steps=18446744073709551615"),
    ("steps=7", "steps=18446744073709551616"),
    ("steps=7", "steps=18446744073709551623"),
    ("steps=7", "steps=340282366920938463463374607431768211463"),
    ("steps=7\n", ""),
    ("steps=7\n", "\n"),
    ("steps=7\n", "\nsteps=7\n"),
    ("steps=7\n", "steps=7\n\n"),
    ("steps=7\n", "steps=7"),
    ("steps=7\n", "steps=7\nsteps=7\n"),
    ("steps=7\n", "steps=7\r"),
    ("steps=7\nwords=", "words="),
    ("words=3", "words=03"),
    ("words=3", "words=0"),
    ("words=3", "words="),
    ("words=3", "words=2"),
    ("words=3", "words=4"),
    ("words=3", "words=1024"),
    ("words=3", "words=1025"),
    ("words=3", "words=1027"),
    ("words=3", "words=9999999"),
    ("words=3", "words=4294967299"),
    ("words=3", "words=18446744073709551619"),
    ("words=3", "words=3 "),
    ("words=3", "words= 3"),
    ("words=3", "words=3\r"),
    ("words=3", "words=x"),
    ("words=3", "Words=3"),
    ("words=3\n", "words=3\n\n"),
    ("words=3\n", ""),
    ("0001=", "0002="),
    ("0002=", "0001="),
    ("0002=", "0000="),
    ("0002=", "0003="),
    ("0002=", "0002 ="),
    ("0002=", "0002= "),
    ("0002=", " 0002="),
    ("0002=", "0002:"),
    ("0002=", "002="),
    ("0002=", "2="),
    ("0002=", "00002="),
    ("0002=", "000a="),
    ("0002=", "000G="),
    ("0002=", "0x02="),
    ("0003=", "0FFF="),
    ("0003=", "0fff="),
    ("0003=", "1000="),
    ("0003=", "1003="),
    ("0003=", "FFFF="),
    ("0003=", "10003="),
    ("0003=", "0003"),
    ("0003=", "0003=="),
    ("=00000004", "=0000000"),
    ("=00000004", "=000000004"),
    ("=00000004", "=0000000c"),
    ("=00000004", "=0000000C"),
    ("=00000004", "=0000000g"),
    ("=00000004", "=+0000004"),
    ("=00000004", "= 0000004"),
    ("=00000004", "=0000\x00004"),
    ("=00000004", "=FFFFFFFF"),
    ("0003=", "\r\n0003="),
    ("0003=", "\n0003="),
];

pub fn sheet(seed: u64) -> Vec<u8> {
    let mut draw = Draw::new(0xBAD, seed);
    let place = seed as usize;
    if let Some((from, to)) = CHANGES.get(place) {
        let text = plain();
        return text.replacen(from, to, 1).into_bytes();
    }
    match place - CHANGES.len() {
        0 => Vec::new(),
        1 => b"\n".to_vec(),
        2 => b"steps=0\nwords=0\n".to_vec(),
        3 => b"steps=0\nwords=0".to_vec(),
        4 => b"steps=0\nwords=0\n\n".to_vec(),
        5 => b"steps=0\nwords=0\n0000=0000000000000000\n".to_vec(),
        6 => plain().replace('\n', "\r\n").into_bytes(),
        7 => plain().trim_end().as_bytes().to_vec(),
        8 => (plain() + "\n").into_bytes(),
        9 => (plain() + " ").into_bytes(),
        10 => (plain() + "\0").into_bytes(),
        11 => (plain() + "0004=0000000000000000\n").into_bytes(),
        12 => full(1_024),
        13 => full(1_025),
        14..=25 => sized(place - CHANGES.len() - 14),
        26 => vec![0; 64],
        27 => vec![0xFF; 64],
        28 => b"steps=7\nwords=\xFF\n".to_vec(),
        29 => vec![b'\n'; 300],
        30 => plain().to_lowercase().into_bytes(),
        31 => b"\xEF\xBB\xBFsteps=0\nwords=0\n".to_vec(),
        _ => drawn(&mut draw),
    }
}

/// A whole sheet of three words whose lines the list above changes.
fn plain() -> String {
    "steps=7\nwords=3\n0001=0000000400000000\n0002=0000000801000000\n\
     0003=0000ABCDEF000000\n"
        .to_string()
}

/// A sheet of so many words, all of them present.
fn full(words: usize) -> Vec<u8> {
    let mut text = format!("steps=100\nwords={words}\n");
    for n in 0..words {
        let value = (n as u64).wrapping_mul(0x9E37_79B9_7F4A_7C15);
        text += &format!("{:04X}={value:016X}\n", n * 3 + n / 5);
    }
    text.into_bytes()
}

/// Texts at the longest length, one under and one over it, and a megabyte;
/// each of blanks, of newlines, after a whole sheet, and after a bad line.
fn sized(number: usize) -> Vec<u8> {
    let length = [24_576, 24_577, 1_048_576, 24_575][number % 4];
    let (mut text, filler) = match number / 4 {
        0 => (Vec::new(), b' '),
        1 => (plain().into_bytes(), b'\n'),
        _ => (b"steps=x\n".to_vec(), b'0'),
    };
    text.resize(length, filler);
    text
}

/// Forms of a number, which is n, and of the largest that is taken, m.
const FORMS: [fn(u64, u64) -> String; 12] = [
    |_, _| String::new(),
    |n, _| format!("+{n}"),
    |n, _| format!("-{n}"),
    |n, _| format!("0{n}"),
    |n, _| format!(" {n}"),
    |n, _| format!("{n} "),
    |n, _| format!("{n:X}h"),
    |_, m| format!("{m}"),
    |_, m| format!("{}", m + 1),
    |_, m| format!("{}", m * 2),
    |n, m| format!("{}{n}", m * 10),
    |n, _| format!("{}", (1 << 32) + n),
];

/// A whole sheet with another number in its first line, or in its second, by
/// turns; the forms come by turns too.
pub fn numbers(seed: u64) -> Vec<u8> {
    let mut draw = Draw::new(0xB0D5, seed);
    let text = stopping(&mut draw);
    let (line, most) = [(0, 1_000_000), (1, 1_024)][(seed % 2) as usize];
    let form = FORMS[(seed / 2) as usize % FORMS.len()];
    let mut lines: Vec<Vec<u8>> = split_lines(&text);
    let old = String::from_utf8_lossy(&lines[line]).into_owned();
    if let Some((name, number)) = old.trim_end().split_once('=') {
        let number = form(number.parse().unwrap_or_default(), most);
        lines[line] = format!("{name}={number}\n").into_bytes();
    }
    lines.concat()
}

fn drawn(draw: &mut Draw) -> Vec<u8> {
    let mut text = base(draw);
    if draw.below(8) == 0 {
        return text;
    }
    for _ in 0..draw.from(1, 2) {
        damage(draw, &mut text);
    }
    text
}

/// A small sheet that stops at its first step, in monitor mode without an
/// instruction field.
fn stopping(draw: &mut Draw) -> Vec<u8> {
    let mut draft = Draft {
        steps: draw.below(20),
        ..Draft::default()
    };
    draft.words.insert(2, 1 << 24);
    draft.data(0x10 + draw.below(99) as u32, draw.below(9) as u32, draw);
    draft.text()
}

/// A whole sheet: a small one of its own, or one of another kind.
fn base(draw: &mut Draw) -> Vec<u8> {
    if draw.below(3) == 0 {
        return super::random::sheet(draw.below(1_000_000));
    }
    let mut draft = Draft {
        steps: draw.below(20),
        ..Draft::default()
    };
    for _ in 0..draw.below(12) {
        let address = draw.below(0x1000) as u32;
        draft.words.insert(address, draw.word());
    }
    draft.text()
}

/// Changes bytes or lines of a text at a drawn place.
pub fn damage(draw: &mut Draw, text: &mut Vec<u8>) {
    // The early lines hold the counts, so they are hit more often.
    let reach = if draw.often(50) { 40 } else { u64::MAX };
    let place = draw.below(reach.min(text.len() as u64 + 1)) as usize;
    let place = place.min(text.len());
    match draw.below(12) {
        0 if place < text.len() => text[place] ^= 1 << draw.below(8),
        1 if place < text.len() => text[place] = draw.next() as u8,
        2 => text.insert(place, draw.next() as u8),
        3 => text.insert(place, draw.pick(b"0123456789ABCDEFabcdef=\n\r \0")),
        4 if place < text.len() => drop(text.remove(place)),
        5 => text.truncate(place),
        6 => text.truncate(text.len().saturating_sub(1)),
        7 => text.extend(
            draw.pick(&["\n", "x", "\0", "0FFF=0000000000000000\n"])
                .bytes(),
        ),
        8 => {
            let upper = text.iter().rposition(u8::is_ascii_uppercase);
            upper
                .into_iter()
                .for_each(|n| text[n].make_ascii_lowercase());
        }
        9 => lines(draw, text, |_, lines, n| lines.swap(n, n / 2)),
        10 => lines(draw, text, |_, lines, n| drop(lines.remove(n))),
        _ => lines(draw, text, |_, lines, n| lines.insert(n, lines[n].clone())),
    }
}

/// Changes lines near a drawn one; each has its newline with it.
pub fn lines(
    draw: &mut Draw,
    text: &mut Vec<u8>,
    change: impl Fn(&mut Draw, &mut Vec<Vec<u8>>, usize),
) {
    let mut list = split_lines(text);
    if !list.is_empty() {
        let n = draw.below(list.len() as u64) as usize;
        change(draw, &mut list, n);
    }
    *text = list.concat();
}

fn split_lines(text: &[u8]) -> Vec<Vec<u8>> {
    let lines = text.split_inclusive(|byte| *byte == b'\n');
    lines.map(<[u8]>::to_vec).collect()
}
