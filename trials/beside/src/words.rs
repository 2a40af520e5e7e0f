//! A processor of the independent program as the library's words, and the names
//! of these.

use peer::Cause;
use pulxarrid::{Answer, Outside, Register::*, State, STATE_WORDS};

/// Calls `piece` with all words of a processor as the library has them: the
/// place of the first, and so many from there on.
fn pieces(state: &peer::State, mut piece: impl FnMut(usize, &[u64])) {
    let single = [
        u64::from(state.p),
        state.xa.into(),
        state.vl.into(),
        state.vm,
        state.iba.into(),
        state.ila.into(),
        state.dba.into(),
        state.dla.into(),
        state.mm.into(),
        state.ior.into(),
        state.ifp.into(),
        state.fps.into(),
        state.bdm.into(),
        state.ps.into(),
        state.cln.into(),
        state.processor.into(),
    ];
    piece(P.place(), &single);
    piece(A(0).place(), &state.a.map(u64::from));
    piece(S(0).place(), &state.s);
    piece(B(0).place(), &state.b.map(u64::from));
    piece(T(0).place(), &state.t);
    for (n, elements) in state.v.iter().enumerate() {
        piece(V(n, 0).place(), elements);
    }
}

/// The same processor for the library.
pub fn words_of(state: &peer::State) -> State {
    let mut words = [0; STATE_WORDS];
    pieces(state, |at, piece| {
        words[at..at + piece.len()].copy_from_slice(piece)
    });
    State::from_words(words)
}

/// Whether the library has the same processor. This copies nothing: an emulator
/// is slow at that.
pub fn is_same(got: &State, wanted: &peer::State) -> bool {
    let mut same = true;
    pieces(wanted, |at, piece| {
        same &= got.words()[at..at + piece.len()] == *piece
    });
    same
}

pub fn answer_of(answer: peer::Answer) -> Answer {
    match answer {
        peer::Answer::Stepped => Answer::Stepped,
        peer::Answer::Exchanged(flags) => Answer::Exchanged(flags),
        peer::Answer::NotHeld(p) => Answer::NotHeld(p),
        peer::Answer::MonitorFetch(p) => Answer::MonitorFetch(p),
    }
}

pub fn outside_of(outside: Option<peer::Outside>) -> Option<Outside> {
    outside.map(|peer::Outside { cause, element }| match cause {
        Cause::Below => Outside::BelowBase(element),
        Cause::Limit => Outside::OverLimit(element),
        Cause::Memory => Outside::BeyondMemory(element),
    })
}

/// The first word that two processors do not share.
pub fn difference(got: &State, wanted: &State) -> String {
    let (got, wanted) = (got.words(), wanted.words());
    let differ = |n: &usize| got[*n] != wanted[*n];
    match (0..STATE_WORDS).find(differ) {
        None => "nothing differs".to_string(),
        Some(n) => format!(
            "{} is {:X} by the library, {:X} by the independent program",
            name(n),
            got[n],
            wanted[n]
        ),
    }
}

const SINGLE: [&str; 16] = [
    "P",
    "XA",
    "VL",
    "VM",
    "IBA",
    "ILA",
    "DBA",
    "DLA",
    "MM",
    "IOR",
    "IFP",
    "FPS",
    "BDM",
    "PS",
    "CLN",
    "its number",
];

/// The register of a place; B and T have octal numbers, as they do in CAL.
fn name(place: usize) -> String {
    match place {
        0..=15 => SINGLE[place].to_string(),
        16..=23 => format!("A{}", place - 16),
        24..=31 => format!("S{}", place - 24),
        32..=95 => format!("B{:02o}", place - 32),
        96..=159 => format!("T{:02o}", place - 96),
        _ => format!("V{}, element {},", (place - 160) / 64, (place - 160) % 64),
    }
}
