//! The held codes as a list of patterns, apart from the machine's own table.
//!
//! The generator draws instructions from this list and the coverage counts by
//! it; a test checks that it names exactly the codes that the machine holds.

/// In which mode a code is held.
#[derive(Clone, Copy, PartialEq, Eq, Debug)]
pub enum Mode {
    Both,
    User,
}

/// Six places of octal digits, highest first. A digit stands for itself; `h`,
/// `i`, `j`, `k` are any digit; `u` is one of 0 to 3 and `c` one of 4 to 7.
/// A seventh letter, `m`, marks a second parcel.
#[derive(Clone, Copy, Debug)]
pub struct Code {
    pub text: &'static str,
    pub mode: Mode,
}

const fn both(text: &'static str) -> Code {
    let mode = Mode::Both;
    Code { text, mode }
}

const fn user(text: &'static str) -> Code {
    let mode = Mode::User;
    Code { text, mode }
}

/// A parcel belongs to the first pattern that it fits: 001000 is before 0010jk.
#[rustfmt::skip]
pub const CODES: &[Code] = &[
    both("000000"), both("001000"), user("0010jk"), user("0011jk"), user("0012jk"),
    both("0013j0"), user("0014jk"), user("0015jk"),
    both("00200k"), both("002300"), both("002400"), both("002500"), both("002600"),
    both("002700"), both("0030j0"), both("004000"), both("0050jk"),
    both("006ujkm"), both("007ujkm"),
    both("010ujkm"), both("011ujkm"), both("012ujkm"), both("013ujkm"),
    both("014ujkm"), both("015ujkm"), both("016ujkm"), both("017ujkm"),
    both("01hcjkm"),
    both("020ijkm"), both("021ijkm"), both("022ijk"), both("023ij0"), both("023i01"),
    both("024ijk"), both("025ijk"), both("026ij0"), both("026ij1"), both("027ij0"),
    both("030ijk"), both("031ijk"), both("032ijk"),
    both("034ijk"), both("035ijk"), both("036ijk"), both("037ijk"),
    both("040ijkm"), both("041ijkm"), both("042ijk"), both("043ijk"),
    both("044ijk"), both("045ijk"), both("046ijk"), both("047ijk"),
    both("050ijk"), both("051ijk"), both("052ijk"), both("053ijk"),
    both("054ijk"), both("055ijk"), both("056ijk"), both("057ijk"),
    both("060ijk"), both("061ijk"),
    both("071i0k"), both("071i1k"), both("073i00"), both("073i01"),
    both("074ijk"), both("075ijk"), both("076ijk"), both("077ijk"),
    both("10hijkm"), both("11hijkm"), both("12hijkm"), both("13hijkm"),
    both("140ijk"), both("141ijk"), both("142ijk"), both("143ijk"),
    both("144ijk"), both("145ijk"), both("146ijk"), both("147ijk"),
    both("150ijk"), both("151ijk"), both("152ijk"), both("153ijk"),
    both("154ijk"), both("155ijk"), both("156ijk"), both("157ijk"),
    both("174ij1"), both("174ij2"),
    both("1750j0"), both("1750j1"), both("1750j2"), both("1750j3"),
    both("176i0k"), both("1770jk"),
];

/// The digits that a letter of a pattern stands for.
pub fn digits(letter: u8) -> std::ops::RangeInclusive<u16> {
    match letter {
        b'0'..=b'7' => u16::from(letter - b'0')..=u16::from(letter - b'0'),
        b'u' => 0..=3,
        b'c' => 4..=7,
        _ => 0..=7,
    }
}

/// The octal digits of a parcel; the first has one bit, the others three.
pub fn split(parcel: u16) -> [u16; 6] {
    let digit = |n: u16| parcel >> (15 - 3 * n) & 7;
    [0, 1, 2, 3, 4, 5].map(digit)
}

/// Whether a pattern's first parcels include this one.
pub fn fits(text: &str, parcel: u16) -> bool {
    let mut pairs = text.bytes().zip(split(parcel));
    pairs.all(|(letter, digit)| digits(letter).contains(&digit))
}

impl Code {
    pub fn two_parcels(&self) -> bool {
        self.text.len() == 7
    }

    pub fn held(&self, monitor: bool) -> bool {
        self.mode == Mode::Both || !monitor
    }
}

/// The pattern of a first parcel, if it is held in some mode.
pub fn find(parcel: u16) -> Option<usize> {
    CODES.iter().position(|code| fits(code.text, parcel))
}

/// The pattern of a first parcel, if it is held in this mode.
pub fn held(parcel: u16, monitor: bool) -> Option<usize> {
    find(parcel).filter(|n| CODES[*n].held(monitor))
}

// What the digits of a pattern name, and what it does with them.

#[derive(Clone, Copy, PartialEq, Eq, Hash, Debug)]
pub enum Designator {
    H,
    J,
    K,
}

#[derive(Clone, Copy, PartialEq, Eq, Hash, Debug)]
pub enum File {
    A,
    S,
}

/// An operand by its designator, and the registers that it names.
#[derive(Clone, Copy, PartialEq, Eq, Hash, Debug)]
pub struct Operand(pub Designator, pub File);

impl Designator {
    /// How far its digit stands from the right of a parcel.
    pub fn shift(self) -> u16 {
        match self {
            Designator::H => 9,
            Designator::J => 3,
            Designator::K => 0,
        }
    }
}

/// The operands that are constants where their designator is zero.
pub fn specials(text: &str) -> &'static [Operand] {
    use {Designator::*, File::*};
    match text {
        "00200k" | "071i0k" | "071i1k" | "076ijk" | "150ijk" | "151ijk" | "152ijk" | "153ijk"
        | "176i0k" | "1770jk" => &[Operand(K, A)],
        "0013j0" => &[Operand(J, A)],
        "0030j0" | "023ij0" | "026ij0" | "026ij1" | "027ij0" | "140ijk" | "142ijk" | "144ijk"
        | "146ijk" | "154ijk" | "156ijk" => &[Operand(J, S)],
        "030ijk" | "031ijk" | "032ijk" => &[Operand(J, A), Operand(K, A)],
        "044ijk" | "045ijk" | "046ijk" | "047ijk" | "050ijk" | "051ijk" | "060ijk" | "061ijk" => {
            &[Operand(J, S), Operand(K, S)]
        }
        "056ijk" | "057ijk" | "077ijk" => &[Operand(J, S), Operand(K, A)],
        "10hijkm" | "11hijkm" | "12hijkm" | "13hijkm" => &[Operand(H, A)],
        _ => &[],
    }
}

/// How a shift takes its count, and from which count on nothing is left.
#[derive(Clone, Copy, PartialEq, Eq, Debug)]
pub enum Shift {
    /// By jk.
    Left,
    /// By 64-jk.
    Right,
    /// By Ak.
    Register(u32),
}

pub fn shift(text: &str) -> Option<Shift> {
    match text {
        "052ijk" | "054ijk" => Some(Shift::Left),
        "053ijk" | "055ijk" => Some(Shift::Right),
        "150ijk" | "151ijk" => Some(Shift::Register(64)),
        "056ijk" | "057ijk" | "152ijk" | "153ijk" => Some(Shift::Register(128)),
        _ => None,
    }
}

/// The operands of a vector instruction that are vectors.
pub fn vectors(text: &str) -> &'static [Designator] {
    use Designator::*;
    match text {
        "141ijk" | "143ijk" | "145ijk" | "147ijk" | "155ijk" | "157ijk" => &[J, K],
        "140ijk" | "142ijk" | "144ijk" | "146ijk" | "154ijk" | "156ijk" => &[K],
        "150ijk" | "151ijk" | "152ijk" | "153ijk" | "174ij1" | "174ij2" => &[J],
        _ => &[],
    }
}

/// Whether it does something else in the other mode.
pub fn by_mode(text: &str) -> bool {
    matches!(text, "0013j0" | "073i01")
}

/// Whether it is a branch on A0 or S0.
pub fn is_branch(text: &str) -> bool {
    text.starts_with("01") && text.contains('u')
}

pub fn is_vector(text: &str) -> bool {
    text.starts_with("14") || text.starts_with("15") || text.starts_with("17")
}

/// Whether an instruction refers to memory: to none, to one word, to those of a
/// block move, to those of a vector; and whether it stores.
#[derive(Clone, Copy, PartialEq, Eq, Debug)]
pub enum Reference {
    No,
    Word(bool),
    Block(bool),
    Vector(bool),
}

pub fn reference(text: &str) -> Reference {
    match text {
        "10hijkm" | "12hijkm" => Reference::Word(false),
        "11hijkm" | "13hijkm" => Reference::Word(true),
        "034ijk" | "036ijk" => Reference::Block(false),
        "035ijk" | "037ijk" => Reference::Block(true),
        "176i0k" => Reference::Vector(false),
        "1770jk" => Reference::Vector(true),
        _ => Reference::No,
    }
}

/// The most words that an instruction moves.
pub fn most_words(text: &str) -> u32 {
    match reference(text) {
        Reference::No => 0,
        Reference::Word(_) => 1,
        Reference::Block(_) => 127,
        Reference::Vector(_) => 64,
    }
}

/// The number of the register that a reference moves, or moves first.
pub fn moved(text: &str, parcel: u16) -> u16 {
    match reference(text) {
        Reference::Block(_) => parcel & 0o77,
        Reference::Vector(true) => parcel >> 3 & 7,
        _ => parcel >> 6 & 7,
    }
}

/// Whether an instruction stores words.
pub fn stores(text: &str) -> bool {
    use Reference::*;
    matches!(reference(text), Word(true) | Block(true) | Vector(true))
}

/// Whether nothing is held of a code, given by its first seven bits.
pub fn empty(gh: u16) -> bool {
    let of_code = |text: &str| {
        let mut pairs = text.bytes().zip(split(gh << 9)).take(3);
        pairs.all(|(letter, digit)| digits(letter).contains(&digit))
    };
    !CODES.iter().any(|code| of_code(code.text))
}
