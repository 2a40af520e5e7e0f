//! Texts that the assembler refuses, and a few that it only nearly does.
//!
//! The first seeds go through lists, each with one bad line or one way of
//! breaking a whole text; the others draw one or two kinds of damage to a good
//! text. Some are left whole.

use super::cal::{drawn, drawn_until, spelled};
use super::damaged::{damage, lines};
use super::draw::Draw;
use crate::cal::{list, takes_second, LONGEST, SPELLINGS};

/// Lines that no held instruction has.
#[rustfmt::skip]
pub const REFUSED: &[&str] = &[
    // Digits and numbers.
    "J 8", "022 A1 9", "J 19", "A8 S2", "A1 S9", "A1 B08", "J B80", "V1 V2&V8", "028 A1 5",
    "J 100000000", "JSM 100000000", "R 177777777", "013 A3 100000000", "020 A1 20000000",
    "021 A1 20000000", "040 S1 20000000", "041 S1 77777777", "A1 20000000,A2",
    "20000000,A2 A1", "S1 20000000,A2", "20000000,A2 S1", "022 A1 100", "052 S0 S1<100",
    "053 S0 S1>100", "054 S1 S1<100", "055 S1 S1>100", "S1 <0", "S1 <101", "S1 >100",
    "CLN 4", "IP 2", "J 40000000000", "022 A1 2000000000000000000005",
    "J 7777777777777777777777777777777777777777777", "J 00", "J 010", "JAZ 00000010",
    "022 A1 07", "022 A1 00", "020 A1 05", "013 A3 017", "040 S1 00", "S1 <0100", "S1 <01",
    "S1 >00", "052 S0 S1<07", "A1 05,A2", "00,A2 A1", "CLN 03", "IP 01", "J", "J ",
    "020 A1", "020 A1 ", "S1 <", "S1 >", "054 S1 S1<", "020 A1 -5", "020 A1 +5", "020 A1 5D",
    "020 A1 0x5", "J 5.", "J A", "J *",
    // Registers of a wrong kind, width or number.
    "A10 S2", "A1 S10", "A01 S2", "A S2", "A1 S", "A1 B7", "A1 B007", "A1 B100", "B7 A1",
    "J B7", "S1 T7", "T007 S1", "VL A10", "V1 V2&V10", "S1 SR", "S1 SR1", "S1 SR00", "SR0 S1",
    "S1 B07", "A1 T07", "B07 S1", "T07 A1", "A1 V2,A3", "S1 V2,S3", "V1,S3 S2", "V1 A2&V3",
    "V1 V2&S3", "A1 A2+S3", "S1 A2+A3", "XA S1", "RT A1", "PCI A1", "VL S1", "VM A1", "VM V2",
    "J T07", "CA,S1 A2", "CL,A1 S2", "B07,S1 ,A0", "B07,A1 ,A1", ",A1 B07,A1", "V1 ,A1,A2",
    ",A1,A2 V1", "S1 5,S2", "5,A2 V1", "S1 S1,S2<S3", "V1 V2<S3", "A1 PV2", "V1 PS2", "A1 ZV2",
    "A1 VM", "S1 VL", "VM V2,X", "VM V2,",
    // Registers that a line repeats, and their order.
    "054 S1 S2<3", "055 S1 S2>3", "S1 S2!S4&S3", "S1 S2,S1<A3", "S1 S2,S3<A4", "S1 S1,S2>A3",
    "S1 S2,S3>A4", "V1 V2,V4<A3", "V1 V2,V1>A3", "S1 S2&#S3", "011 A3 1", "017 A0 5",
    // Prefixes missing, and those of others.
    "A1 5", "A1 1", "A3 17", "S1 5", "S0 S1<7", "S0 S1>100", "S1 S1<7", "S1 S1>7", "020 S1 5",
    "040 A1 5", "022 S1 5", "053 S1 S1>0", "052 S1 S1<7", "054 S0 S1<7", "053 S0 S1<7",
    "055 S1 S1<7", "042 S1 <5", "030 A1 A2+A3", "006 J 5", "10 A0 5", "0010 A0 5", "018 A0 5",
    "020A1 5",
    // Blanks, letters and other bytes.
    "", " ", "PASS ", " PASS", "A1  S2", "A1S2", "A1\tS2", "A1 S2\t", "A1 A2 +A3", "CA, A1 A2",
    "B07,A1,A0", "S1 < 5", "S1<5", "J5", "VM V2, Z", "A1 5, A2", "E X", "EX EX", "ERREX", "ER",
    "PASSS", "JA 5", "JAZ B07", "pass", "a1 s2", "A1 s2", "s1 VM", "A1 vl", "J b07", "EX\r",
    "EX\0", "\0EX", "A1\0S2", "EX\u{a0}", "S1 S2|S3", "S1 S2/S3", "A1 A2/A3", "EX,", "EX * END",
    "LOOP J 5",
    // Data of spelled parcels, and data of no parcel.
    "data=", "data=06400", "data=0006400", "data=006408", "data= 006400", "data=006400 ",
    "data:006400", "Data=006400", "DATA=006400", "006400", "data=200000", "data=777777",
    "data=000000", "data=001000", "data=004000", "data=022105", "data=001430", "data=001200",
    "data=001403", "data=177000",
    // The pages' other spellings, and what is not held.
    "CA,A0 A0", "VL 1", "VM 0", "A1 A2", "A1 A2+1", "A1 -1", "A1 -A2", "A1 A2-1",
    "B07,A1 0,A0", "0,A0 B07,A1", "T07,A1 0,A0", "0,A0 T07,A1", "S1 #>5", "S1 1", "S1 -1",
    "S1 #<5", "S1 0", "S1 S2&SB", "S1 SB&S2", "S1 #SB&S2", "S1 S2\\SB", "S1 #S2", "S1 #SB",
    "S1 S2!S1&SB", "S1 S2", "S1 SB!S2", "S1 SB", "S1 S1,S2<1", "S1 S1<A2", "S1 S2,S1>1",
    "S1 S1>A2", "S1 -S2", "V1,A2 0", "A1 5,0", "A1 5,", "A1 ,A2", "5,0 A1", "5, A1", ",A2 A1",
    "S1 5,0", "S1 5,", "S1 ,A2", "5,0 S1", ",A2 S1", "V1 V2", "V1 0", "V1 #VM&V2", "V1 V2<1",
    "V1 V2>1", "V1 V2,V2<1", "V1 V2,V2>1", "V1 -V2", "V1 ,A0,1", ",A0,1 V1", "EFI", "DFI",
    "A1 CI", "A1 CA,A2", "A1 CE,A2", "S1 S2+FS3", "S1 /HS2", "S1 +FA2", "S1 1.", "V1 V2*FV3",
    "V1 /HV2",
];

/// Lines of codes that are not held yet, and lines near them.
pub const LATER: &[&str] = &[
    "SM05 1,TS",
    "SM37 0",
    "SM00 1",
    "A1 SB2",
    "SB2 A1",
    "S1 SM",
    "S1 ST2",
    "SM S1",
    "ST2 S1",
    "S1 RT",
    "SM5 1,TS",
    "SM40 1,TS",
];

pub fn text(seed: u64) -> Vec<u8> {
    let mut draw = Draw::new(0xBADCA1, seed);
    if let Some(line) = REFUSED.iter().chain(LATER).nth(seed as usize) {
        let (before, after) = (some(&mut draw), some(&mut draw));
        return among(&before, line, &after);
    }
    let good = some(&mut draw);
    let long = b"J ".iter().chain(&[b'7'; 60_000]).chain(b"\n");
    match seed - (REFUSED.len() + LATER.len()) as u64 {
        0 => b"\n".to_vec(),
        1 => b"EX".to_vec(),
        2 => [&good, &b"A1 S2"[..]].concat(),
        3 => [&good, &b"A1 S2\r"[..]].concat(),
        4 => String::from_utf8_lossy(&good).replace('\n', "\r\n").into(),
        5 => among(&good, "A1 S2EX", &good),
        6 => among(&good, "A1 S2 EX", &good),
        7 => [b"\n", &good[..]].concat(),
        8 => [&good[..], b"\n"].concat(),
        9 => [&good[..], b" "].concat(),
        10 => [&good[..], b"\0"].concat(),
        11 => vec![0; 64],
        12 => vec![0xFF; 64],
        13 => [b"\xEF\xBB\xBF", &good[..]].concat(),
        14 => among(&good, "data=020100", b""),
        15 => among(&good, "data=020100", &good),
        16 => among(&good, "data=020100", b"data=020100\n"),
        17 => among(&good, "data=020100", b"\n"),
        18 => [&good[..], b"data=020100"].concat(),
        19 => among(&good, "data=137777", b"data=006400\n"),
        20 => good.to_ascii_lowercase(),
        21 => vec![b'\n'; 300],
        22 => long.copied().collect(),
        23 => vec![b' '; 60_000],
        24 => among(&good, "data=020100", b"EX"),
        n @ 25..=28 => sized(n - 25, b"J 0\n"),
        _ => broken(&mut draw),
    }
}

/// A few good lines, at least one.
fn some(draw: &mut Draw) -> Vec<u8> {
    let count = draw.from(1, 6);
    let parcels: Vec<u16> = (0..count).flat_map(|_| spelled(draw)).collect();
    list(&parcels)
}

/// A line between others.
pub fn among(before: &[u8], line: &str, after: &[u8]) -> Vec<u8> {
    [before, line.as_bytes(), b"\n", after].concat()
}

/// Texts of one line again and again: as many as may be, one more, and as many
/// with the last one not ended; and a bad text that is too long.
pub fn sized(number: u64, line: &[u8]) -> Vec<u8> {
    let most = LONGEST / line.len();
    match number {
        0 => line.repeat(most),
        1 => line.repeat(most + 1),
        2 => line.repeat(most)[..most * line.len() - 1].to_vec(),
        _ => vec![b'x'; LONGEST + 1],
    }
}

fn broken(draw: &mut Draw) -> Vec<u8> {
    let mut text = list(&drawn(draw));
    if draw.below(10) == 0 {
        return text;
    }
    let times = if draw.often(80) { 1 } else { 2 };
    for _ in 0..times {
        drawn_damage(draw, &mut text, true);
    }
    text
}

/// Damages a text in one way, in ways of CAL's own too if it is CAL.
pub fn drawn_damage(draw: &mut Draw, text: &mut Vec<u8>, cal: bool) {
    match draw.below(12) {
        0 => shorten(text),
        1 => damage(draw, text),
        2 => lines(draw, text, |_, lines, n| lines.insert(n, b"\n".to_vec())),
        3 => lines(draw, text, |_, lines, n| shorten(&mut lines[n])),
        4..=7 if cal => lines(draw, text, |draw, lines, n| {
            lines[n] = wrong(draw, &lines[n])
        }),
        _ => lines(draw, text, |draw, lines, n| {
            shorten(&mut lines[n]);
            spoil(draw, &mut lines[n]);
            lines[n].push(b'\n');
        }),
    }
}

/// Takes the last byte off.
fn shorten(text: &mut Vec<u8>) {
    text.truncate(text.len().saturating_sub(1));
}

/// Damages a line, which has no end here, in one way.
fn spoil(draw: &mut Draw, line: &mut Vec<u8>) {
    let figure = place(draw, line, u8::is_ascii_digit);
    let blank = place(draw, line, |byte| *byte == b' ');
    let letter = place(draw, line, u8::is_ascii_alphabetic);
    let any = draw.below(line.len() as u64 + 1) as usize;
    match (draw.below(16), figure, blank, letter) {
        (0, Some(n), ..) => line[n] = draw.pick(b"89"),
        (1, Some(n), ..) => drop(line.remove(n)),
        (2, Some(n), ..) => line.insert(n, draw.pick(b"01234567")),
        (3, Some(n), ..) => line[n] = draw.pick(b"01234567"),
        (4, Some(n), ..) => more(line, n),
        (5, _, Some(n), _) => line.insert(n, b' '),
        (6, _, Some(n), _) => drop(line.remove(n)),
        (7, _, Some(n), _) => line[n] = b'\t',
        (8, .., Some(n)) => line[n].make_ascii_lowercase(),
        (9, .., Some(n)) => line[n] = draw.pick(b"ABSTVMJ"),
        (10, ..) => line.insert(0, b' '),
        (11, ..) => line.push(draw.pick(b" \t,")),
        (12, ..) => line.push(b'\r'),
        (13, ..) => line.insert(any, 0),
        (14, ..) => line.insert(any, draw.pick(b"0 ,#&+=")),
        _ => line.truncate(any),
    }
}

/// A drawn place of a byte that is wanted.
fn place(draw: &mut Draw, line: &[u8], wanted: impl Fn(&u8) -> bool) -> Option<usize> {
    let places: Vec<usize> = (0..line.len()).filter(|n| wanted(&line[*n])).collect();
    (!places.is_empty()).then(|| draw.pick(&places))
}

/// Adds one to the octal number around a place.
fn more(line: &mut Vec<u8>, place: usize) {
    let other = |byte: &u8| !byte.is_ascii_digit();
    let start = line[..place].iter().rposition(other).map_or(0, |n| n + 1);
    let end = line[place..]
        .iter()
        .position(other)
        .map_or(line.len(), |n| place + n);
    let figures = String::from_utf8_lossy(&line[start..end]);
    let value = u64::from_str_radix(&figures, 8).unwrap_or(0);
    let width = if figures.starts_with('0') {
        figures.len()
    } else {
        1
    };
    let next = format!("{:0width$o}", value.wrapping_add(1));
    line.splice(start..end, next.into_bytes());
}

/// A whole line in place of a good one.
fn wrong(draw: &mut Draw, good: &[u8]) -> Vec<u8> {
    let line = match draw.below(8) {
        0 | 1 => draw.pick(REFUSED).to_string(),
        2 => draw.pick(LATER).to_string(),
        3 => format!("data={:06o}", spelled(draw)[0]),
        4 => format!("data={:06o}", drawn_until(draw, takes_second)),
        5 => too_large(draw),
        6 => crossed(draw),
        _ => other_prefix(draw, &String::from_utf8_lossy(good)),
    };
    (line + "\n").into_bytes()
}

/// A line whose number is just too large for its field.
fn too_large(draw: &mut Draw) -> String {
    let parts = SPELLINGS.iter().filter_map(|row| {
        let (before, rest) = row.line.split_once('{')?;
        let (name, after) = rest.split_once('}')?;
        Some((before, name, after))
    });
    let (before, name, after) = draw.pick(&parts.collect::<Vec<_>>());
    let number = match name {
        "ijkm" => 1 << 24,
        "jkm" => 1 << 22,
        "jk" => 64,
        _ => 65,
    };
    let line = format!("{before}{number:o}{after}");
    let [h, i] = [draw.digit(), draw.digit()].map(|digit| digit.to_string());
    line.replace('h', &h).replace('i', &i)
}

/// The first part of one good line and the last of another.
fn crossed(draw: &mut Draw) -> String {
    let [one, other] = [spelled(draw), spelled(draw)].map(|parcels| list(&parcels));
    let (one, other) = (
        String::from_utf8_lossy(&one),
        String::from_utf8_lossy(&other),
    );
    let first = one.trim_end().split(' ').next();
    let last = other.trim_end().rsplit(' ').next();
    format!("{} {}", first.unwrap_or_default(), last.unwrap_or_default())
}

/// A line without its prefix, or with one that is not its own.
fn other_prefix(draw: &mut Draw, good: &str) -> String {
    let prefix = draw.pick(&[
        "010 ", "013 ", "020 ", "021 ", "022 ", "040 ", "041 ", "052 ", "053 ", "054 ", "055 ", "",
    ]);
    let good = good.trim_end();
    let bare = match good.get(4..) {
        Some(bare) if good.starts_with('0') && good.as_bytes()[3] == b' ' => bare,
        _ => good,
    };
    format!("{prefix}{bare}")
}
