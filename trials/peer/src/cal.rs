//! CAL: the assembler and its listing, and what programs for them print.
//!
//! Both go by one table of spellings. The assembler parses a line by a row of
//! it, from left to right; the listing writes a row out. Which parcels are held
//! and which take a second one, the list in `codes` says.

use crate::codes::{digits, find, fits, split, CODES};
use std::sync::OnceLock;

/// The longest text that is looked at.
pub const LONGEST: usize = 1_048_576;
/// The parcels that a parcel address can name.
const ADDRESSES: u64 = 1 << 24;
/// The words that a case sheet can name.
const WORDS: u64 = 4_096;

/// How the parcels of a pattern are spelled.
pub struct Spelling {
    /// A pattern as in `codes`, of one held code or of a part of it.
    pub code: &'static str,
    /// The line. `h`, `i`, `j`, `k` stand for the digit at that place, the same
    /// wherever the letter comes. Braces hold a number, octal without needless
    /// zeros: some of `ijkm` joined, i with its low two bits, or 64 less that.
    /// All else stands for itself.
    pub line: &'static str,
}

const fn row(code: &'static str, line: &'static str) -> Spelling {
    Spelling { code, line }
}

/// A parcel belongs to the first row that it fits: 001000 is only `PASS`.
#[rustfmt::skip]
pub const SPELLINGS: &[Spelling] = &[
    row("000000", "ERR"),
    row("001000", "PASS"),
    row("0010jk", "CA,Aj Ak"),
    row("0011jk", "CL,Aj Ak"),
    row("0012j0", "CI,Aj"),
    row("0012j1", "MC,Aj"),
    row("0013j0", "XA Aj"),
    row("0014j0", "RT Sj"),
    row("001401", "IP 1"),
    row("001402", "IP 0"),
    row("0014u3", "CLN j"),
    row("0014j4", "PCI Sj"),
    row("001405", "CCI"),
    row("001406", "ECI"),
    row("001407", "DCI"),
    row("00200k", "VL Ak"),
    row("002300", "ERI"),
    row("002400", "DRI"),
    row("002500", "DBM"),
    row("002600", "EBM"),
    row("002700", "CMR"),
    row("0030j0", "VM Sj"),
    row("004000", "EX"),
    row("0050jk", "J Bjk"),
    row("006ujkm", "J {ijkm}"),
    row("007ujkm", "R {ijkm}"),
    row("010ujkm", "JAZ {ijkm}"),
    row("011ujkm", "JAN {ijkm}"),
    row("012ujkm", "JAP {ijkm}"),
    row("013ujkm", "JAM {ijkm}"),
    row("014ujkm", "JSZ {ijkm}"),
    row("015ujkm", "JSN {ijkm}"),
    row("016ujkm", "JSP {ijkm}"),
    row("017ujkm", "JSM {ijkm}"),
    row("01hcjkm", "01h Ah {ijkm}"),
    row("020ijkm", "020 Ai {jkm}"),
    row("021ijkm", "021 Ai {jkm}"),
    row("022ijk", "022 Ai {jk}"),
    row("023ij0", "Ai Sj"),
    row("023i01", "Ai VL"),
    row("024ijk", "Ai Bjk"),
    row("025ijk", "Bjk Ai"),
    row("026ij0", "Ai PSj"),
    row("026ij1", "Ai QSj"),
    row("027ij0", "Ai ZSj"),
    row("030ijk", "Ai Aj+Ak"),
    row("031ijk", "Ai Aj-Ak"),
    row("032ijk", "Ai Aj*Ak"),
    row("034ijk", "Bjk,Ai ,A0"),
    row("035ijk", ",A0 Bjk,Ai"),
    row("036ijk", "Tjk,Ai ,A0"),
    row("037ijk", ",A0 Tjk,Ai"),
    row("040ijkm", "040 Si {jkm}"),
    row("041ijkm", "041 Si {jkm}"),
    row("042ijk", "Si <{64-jk}"),
    row("043ijk", "Si >{jk}"),
    row("044ijk", "Si Sj&Sk"),
    row("045ijk", "Si #Sk&Sj"),
    row("046ijk", "Si Sj\\Sk"),
    row("047ijk", "Si #Sj\\Sk"),
    row("050ijk", "Si Sj!Si&Sk"),
    row("051ijk", "Si Sj!Sk"),
    row("052ijk", "052 S0 Si<{jk}"),
    row("053ijk", "053 S0 Si>{jk}"),
    row("054ijk", "054 Si Si<{jk}"),
    row("055ijk", "055 Si Si>{jk}"),
    row("056ijk", "Si Si,Sj<Ak"),
    row("057ijk", "Si Sj,Si>Ak"),
    row("060ijk", "Si Sj+Sk"),
    row("061ijk", "Si Sj-Sk"),
    row("071i0k", "Si Ak"),
    row("071i1k", "Si +Ak"),
    row("073i00", "Si VM"),
    row("073i01", "Si SR0"),
    row("074ijk", "Si Tjk"),
    row("075ijk", "Tjk Si"),
    row("076ijk", "Si Vj,Ak"),
    row("077ijk", "Vi,Ak Sj"),
    row("10hijkm", "Ai {jkm},Ah"),
    row("11hijkm", "{jkm},Ah Ai"),
    row("12hijkm", "Si {jkm},Ah"),
    row("13hijkm", "{jkm},Ah Si"),
    row("140ijk", "Vi Sj&Vk"),
    row("141ijk", "Vi Vj&Vk"),
    row("142ijk", "Vi Sj!Vk"),
    row("143ijk", "Vi Vj!Vk"),
    row("144ijk", "Vi Sj\\Vk"),
    row("145ijk", "Vi Vj\\Vk"),
    row("146ijk", "Vi Sj!Vk&VM"),
    row("147ijk", "Vi Vj!Vk&VM"),
    row("150ijk", "Vi Vj<Ak"),
    row("151ijk", "Vi Vj>Ak"),
    row("152ijk", "Vi Vj,Vj<Ak"),
    row("153ijk", "Vi Vj,Vj>Ak"),
    row("154ijk", "Vi Sj+Vk"),
    row("155ijk", "Vi Vj+Vk"),
    row("156ijk", "Vi Sj-Vk"),
    row("157ijk", "Vi Vj-Vk"),
    row("174ij1", "Vi PVj"),
    row("174ij2", "Vi QVj"),
    row("1750j0", "VM Vj,Z"),
    row("1750j1", "VM Vj,N"),
    row("1750j2", "VM Vj,P"),
    row("1750j3", "VM Vj,M"),
    row("176i0k", "Vi ,A0,Ak"),
    row("1770jk", ",A0,Ak Vj"),
];

/// What a first parcel is.
#[derive(Clone, Copy)]
struct Class {
    row: Option<usize>,
    two: bool,
}

/// The class of a first parcel; all are worked out once.
fn class(first: u16) -> Class {
    static CLASSES: OnceLock<Vec<Class>> = OnceLock::new();
    let worked_out = |first| {
        let code = find(first).map(|code| &CODES[code]);
        let row = SPELLINGS.iter().position(|row| fits(row.code, first));
        Class {
            row: row.filter(|_| code.is_some()),
            two: code.is_some_and(|code| code.two_parcels()),
        }
    };
    let classes = CLASSES.get_or_init(|| (0..=u16::MAX).map(worked_out).collect());
    classes[usize::from(first)]
}

/// The row of a held first parcel, if it has one.
pub fn spelling(first: u16) -> Option<usize> {
    class(first).row
}

/// Whether a first parcel begins a held instruction of two.
pub fn takes_second(first: u16) -> bool {
    class(first).two
}

/// The parcels of a text, or the number of its first bad line.
pub fn assemble(text: &[u8]) -> Result<Vec<u16>, usize> {
    by_line(text, |line, last| {
        instruction(line).or_else(|| data(line, last))
    })
}

/// Reads a text line by line, each being told whether it is the last; the error
/// is the number of the first that is bad.
fn by_line(text: &[u8], read: impl Fn(&[u8], bool) -> Option<Vec<u16>>) -> Result<Vec<u16>, usize> {
    let lines: Vec<&[u8]> = text.split_inclusive(|byte| *byte == b'\n').collect();
    let mut parcels = Vec::new();
    for (line, number) in lines.iter().zip(1..) {
        let ended = line.strip_suffix(b"\n").ok_or(number)?;
        parcels.extend(read(ended, number == lines.len()).ok_or(number)?);
    }
    Ok(parcels)
}

/// A `data=` line: a parcel without spelling, or one whose second is missing.
fn data(line: &[u8], last: bool) -> Option<Vec<u16>> {
    let parcel = octal_parcel(line.strip_prefix(b"data=")?)?;
    let right = spelling(parcel).is_none() || last && takes_second(parcel);
    right.then(|| vec![parcel])
}

/// Six octal digits of a number below 65,536.
fn octal_parcel(figures: &[u8]) -> Option<u16> {
    let six = figures.len() == 6 && figures.iter().all(is_octal);
    six.then(|| u16::try_from(octal_value(figures)).ok())?
}

fn is_octal(byte: &u8) -> bool {
    matches!(byte, b'0'..=b'7')
}

fn octal_value(figures: &[u8]) -> u64 {
    let add = |value, figure: &u8| value << 3 | u64::from(figure & 7);
    figures.iter().fold(0, add)
}

/// The parcels of the instruction that a line spells.
fn instruction(line: &[u8]) -> Option<Vec<u16>> {
    SPELLINGS.iter().enumerate().find_map(|(n, row)| {
        let parts = parse(row.line.as_bytes(), line, Parts::default())?;
        let first = parts.first(row.code)?;
        let own = spelling(first) == Some(n);
        own.then(|| [Some(first), parts.m].into_iter().flatten().collect())
    })
}

/// What a line has told of its parcels: digits by their place in the first, and
/// the second.
#[derive(Clone, Copy, Default)]
struct Parts {
    digits: [Option<u16>; 6],
    m: Option<u16>,
}

/// Parses a line by the pattern of a row, left to right.
fn parse(pattern: &[u8], line: &[u8], parts: Parts) -> Option<Parts> {
    match pattern {
        [] => line.is_empty().then_some(parts),
        [b'{', rest @ ..] => {
            let (name, rest) = number_name(rest);
            let (value, line) = number(line)?;
            parse(rest, line, parts.with_number(name, value)?)
        }
        [letter @ b'h'..=b'k', rest @ ..] => {
            let (digit, line) = line.split_first().filter(|(digit, _)| is_octal(digit))?;
            parse(rest, line, parts.with(*letter, u64::from(digit & 7))?)
        }
        [letter, rest @ ..] => match line {
            [byte, line @ ..] if byte == letter => parse(rest, line, parts),
            _ => None,
        },
    }
}

/// The name of a number in a pattern, up to its brace, and what follows that.
fn number_name(pattern: &[u8]) -> (&[u8], &[u8]) {
    let mut parts = pattern.splitn(2, |byte| *byte == b'}');
    let mut next = || parts.next().unwrap_or_default();
    (next(), next())
}

/// The octal number in front of a text, and what follows it.
fn number(text: &[u8]) -> Option<(u64, &[u8])> {
    let length = text.iter().take_while(|byte| is_octal(byte)).count();
    let (figures, rest) = text.split_at(length);
    // No field has more than eight digits.
    if !(1..=8).contains(&length) || figures[0] == b'0' && length > 1 {
        return None;
    }
    Some((octal_value(figures), rest))
}

/// The place of a letter's digit in a first parcel.
fn place(letter: u8) -> usize {
    usize::from(letter - b'h') + 2
}

/// The bits that a letter has in a number.
fn width(letter: u8) -> u32 {
    match letter {
        b'i' => 2,
        b'm' => 16,
        _ => 3,
    }
}

/// A number's letters, and what it is taken from if it is a difference.
fn letters(name: &[u8]) -> (&[u8], Option<u64>) {
    match name.strip_prefix(b"64-") {
        Some(name) => (name, Some(64)),
        None => (name, None),
    }
}

impl Parts {
    /// Adds a letter's value, which may only repeat one already told.
    fn with(mut self, letter: u8, value: u64) -> Option<Parts> {
        let slot = match letter {
            b'm' => &mut self.m,
            _ => &mut self.digits[place(letter)],
        };
        let value = u16::try_from(value).ok()?;
        (*slot.get_or_insert(value) == value).then_some(self)
    }

    /// Adds a number, which must fit its letters.
    fn with_number(mut self, name: &[u8], value: u64) -> Option<Parts> {
        let (name, from) = letters(name);
        let mut value = match from {
            Some(from) => from.checked_sub(value)?,
            None => value,
        };
        for letter in name.iter().rev() {
            let low = value & ((1 << width(*letter)) - 1);
            self = self.with(*letter, low)?;
            value >>= width(*letter);
        }
        (value == 0).then_some(self)
    }

    /// The first parcel by the pattern of its code.
    fn first(self, code: &str) -> Option<u16> {
        let mut parcel = 0;
        for (letter, told) in code.bytes().zip(self.digits) {
            let digit = match letter {
                b'0'..=b'7' => u16::from(letter & 7),
                b'c' => told? | 4,
                _ => told?,
            };
            parcel = parcel << 3 | digits(letter).contains(&digit).then_some(digit)?;
        }
        Some(parcel)
    }
}

/// One instruction of a listing, or a parcel that is none.
struct Item<'p> {
    parcels: &'p [u16],
    line: String,
}

/// The items of a listing, in their order.
fn items(mut parcels: &[u16]) -> Vec<Item<'_>> {
    let mut list = Vec::new();
    while let Some(&first) = parcels.first() {
        let length = 1 + usize::from(takes_second(first));
        let row = spelling(first).filter(|_| length <= parcels.len());
        let (taken, rest) = parcels.split_at(length.min(parcels.len()));
        let line = match row {
            Some(row) => written(SPELLINGS[row].line, taken),
            None => format!("data={first:06o}"),
        };
        list.push(Item {
            parcels: taken,
            line,
        });
        parcels = rest;
    }
    list
}

/// The line of a row for the parcels of one instruction.
fn written(pattern: &str, parcels: &[u16]) -> String {
    let figures = split(parcels[0]);
    let value = |letter: u8| match letter {
        b'm' => u64::from(parcels[1]),
        _ => u64::from(figures[place(letter)]),
    };
    let mut line = String::new();
    let mut rest = pattern.as_bytes();
    while let [letter, after @ ..] = rest {
        rest = after;
        match letter {
            b'{' => {
                let name;
                (name, rest) = number_name(after);
                let (name, from) = letters(name);
                let joined = name.iter().fold(0, |sum, letter| {
                    let mask = (1 << width(*letter)) - 1;
                    sum << width(*letter) | value(*letter) & mask
                });
                let number = from.map_or(joined, |from| from - joined);
                line += &format!("{number:o}");
            }
            b'h'..=b'k' => line += &value(*letter).to_string(),
            _ => line.push(char::from(*letter)),
        }
    }
    line
}

/// The text that assembles to these parcels.
pub fn list(parcels: &[u16]) -> Vec<u8> {
    let lines = items(parcels).into_iter().map(|item| item.line + "\n");
    lines.collect::<String>().into_bytes()
}

/// Looks at a text unless it is too long, and prints the line that is refused.
fn answered(
    text: &[u8],
    read: impl Fn(&[u8]) -> Result<Vec<u16>, usize>,
    print: impl Fn(&[u16]) -> Vec<u8>,
) -> Vec<u8> {
    let found = if text.len() > LONGEST {
        Err(0)
    } else {
        read(text)
    };
    match found {
        Ok(parcels) => print(&parcels),
        Err(line) => format!("refused=10\nline={line}\n").into_bytes(),
    }
}

/// Parcels as six octal digits, each on a line.
pub fn octal_text(parcels: &[u16]) -> Vec<u8> {
    let lines = parcels.iter().map(|parcel| format!("{parcel:06o}\n"));
    lines.collect::<String>().into_bytes()
}

/// What the assembler prints: the parcels in octal.
pub fn cal_answer(text: &[u8]) -> Vec<u8> {
    answered(text, assemble, octal_text)
}

/// What the assembler prints for a case sheet: words from an address on, the
/// last one filled with zeros.
pub fn cal_sheet(text: &[u8], address: u64) -> Vec<u8> {
    answered(text, assemble, |parcels| {
        let words = parcels.chunks(4);
        if words.len() as u64 > WORDS.saturating_sub(address) {
            return b"refused=18\n".to_vec();
        }
        let line = |(parcels, address): (&[u16], u64)| {
            let places = [48, 32, 16, 0].into_iter().zip(parcels);
            let word = places.fold(0, |word, (place, parcel)| {
                word | u64::from(*parcel) << place
            });
            format!("{address:04X}={word:016X}\n")
        };
        words
            .zip(address..)
            .map(line)
            .collect::<String>()
            .into_bytes()
    })
}

/// The parcels of a text that has six octal digits on each line, or the number
/// of its first bad line.
fn octal(text: &[u8]) -> Result<Vec<u16>, usize> {
    by_line(text, |line, _| {
        octal_parcel(line).map(|parcel| vec![parcel])
    })
}

/// What the lister prints: the CAL of parcels in octal.
pub fn listing_answer(text: &[u8]) -> Vec<u8> {
    answered(text, octal, list)
}

/// What the lister prints with addresses: that of each instruction, its parcels
/// and its CAL. The address of the first is given.
pub fn listing_wide(text: &[u8], address: u64) -> Vec<u8> {
    answered(text, octal, |parcels| {
        let mut lines = String::new();
        let mut at = address;
        for item in items(parcels) {
            let octal: Vec<String> = item.parcels.iter().map(|p| format!("{p:06o}")).collect();
            let (address, line) = (at % ADDRESSES, item.line);
            lines += &format!("{address:8o}  {:13}  {line}\n", octal.join(" "));
            at += item.parcels.len() as u64;
        }
        lines.into_bytes()
    })
}
