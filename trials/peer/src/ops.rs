//! One function for each instruction, in a table by the first seven bits.
//!
//! P is past the first parcel when a function is called. A function that finds
//! its code not held, or its second parcel outside, returns before it changes
//! a register, so that the step can put P back.

use crate::machine::{Flow, Machine};
use crate::state::{vector_length, State, MASK22, MASK24};
use std::ops::Range;

pub(crate) type Op = fn(&mut Machine, &mut [u64], u16) -> Flow;

/// The functions by gh, eight to a row: row n holds the codes n0 to n7.
#[rustfmt::skip]
pub(crate) static TABLE: [Op; 128] = [
    err, privileged, modes, vm_from_s, ex, jump_b, jump, return_jump,
    jaz, jan, jap, jam, jsz, jsn, jsp, jsm,
    a_jkm, a_not_jkm, a_jk, a_from_s, a_from_b, b_from_a, a_ones, a_zeros,
    a_add, a_sub, a_mul, none, b_read, b_store, t_read, t_store,
    s_jkm, s_not_jkm, s_mask_right, s_mask_left, s_and, s_and_not, s_xor, s_equal,
    s_merge, s_or, s0_left, s0_right, s_left, s_right, s_left_double, s_right_double,
    s_add, s_sub, none, none, none, none, none, none,
    none, s_from_a, none, s_from_vm, s_from_t, t_from_s, s_from_v, v_from_s,
    load_a, load_a, load_a, load_a, load_a, load_a, load_a, load_a,
    store_a, store_a, store_a, store_a, store_a, store_a, store_a, store_a,
    load_s, load_s, load_s, load_s, load_s, load_s, load_s, load_s,
    store_s, store_s, store_s, store_s, store_s, store_s, store_s, store_s,
    vs_and, vv_and, vs_or, vv_or, vs_xor, vv_xor, vs_merge, vv_merge,
    v_left, v_right, v_left_double, v_right_double, vs_add, vv_add, vs_sub, vv_sub,
    none, none, none, none, none, none, none, none,
    none, none, none, none, v_ones, v_mask, v_read, v_store,
];

// The fields of a first parcel.

#[inline(always)]
fn h(w: u16) -> usize {
    usize::from(w >> 9 & 7)
}

#[inline(always)]
fn i(w: u16) -> usize {
    usize::from(w >> 6 & 7)
}

#[inline(always)]
fn j(w: u16) -> usize {
    usize::from(w >> 3 & 7)
}

#[inline(always)]
fn k(w: u16) -> usize {
    usize::from(w & 7)
}

#[inline(always)]
fn jk(w: u16) -> usize {
    usize::from(w & 0o77)
}

#[inline(always)]
fn ijk(w: u16) -> u16 {
    w & 0o777
}

/// The 22 bits of jkm, the second parcel being `m`.
#[inline(always)]
fn jkm(w: u16, m: u32) -> u32 {
    u32::from(w & 0o77) << 16 | m
}

/// The 24 bits of ijkm: the low two bits of i, then j, k, m.
#[inline(always)]
fn ijkm(w: u16, m: u32) -> u32 {
    u32::from(w & 0o377) << 16 | m
}

/// Whether the high bit of i is set.
#[inline(always)]
fn high_i(w: u16) -> bool {
    w & 0o400 != 0
}

// The operands that read as a constant where their designator is 0.

impl State {
    #[inline(always)]
    fn aj(&self, w: u16) -> u32 {
        match j(w) {
            0 => 0,
            n => self.a[n],
        }
    }

    #[inline(always)]
    fn ak(&self, w: u16) -> u32 {
        match k(w) {
            0 => 1,
            n => self.a[n],
        }
    }

    #[inline(always)]
    fn sj(&self, w: u16) -> u64 {
        match j(w) {
            0 => 0,
            n => self.s[n],
        }
    }

    #[inline(always)]
    fn sk(&self, w: u16) -> u64 {
        match k(w) {
            0 => 1 << 63,
            n => self.s[n],
        }
    }

    #[inline(always)]
    fn set_a(&mut self, n: usize, value: u32) -> Flow {
        self.a[n] = value & MASK24;
        Flow::Next
    }

    #[inline(always)]
    fn set_s(&mut self, n: usize, value: u64) -> Flow {
        self.s[n] = value;
        Flow::Next
    }
}

fn none(_: &mut Machine, _: &mut [u64], _: u16) -> Flow {
    Flow::NotHeld
}

// 000 to 005: exits, privileged codes, modes, a branch to a B register.

fn err(_: &mut Machine, _: &mut [u64], w: u16) -> Flow {
    match ijk(w) {
        0 => Flow::ErrorExit,
        _ => Flow::NotHeld,
    }
}

fn privileged(c: &mut Machine, _: &mut [u64], w: u16) -> Flow {
    match i(w) {
        0 if jk(w) == 0 => Flow::Next,
        0 | 1 | 2 | 4 | 5 if !c.r.mm => Flow::Next,
        3 if k(w) == 0 => {
            if c.r.mm {
                c.r.xa = c.r.aj(w) >> 4 & 0xFF;
            }
            Flow::Next
        }
        _ => Flow::NotHeld,
    }
}

fn modes(c: &mut Machine, _: &mut [u64], w: u16) -> Flow {
    match ijk(w) {
        0o000..=0o007 => c.r.vl = vector_length(c.r.ak(w)),
        0o300 => c.r.ior = true,
        0o400 => c.r.ior = false,
        0o500 => c.r.bdm = false,
        0o600 => c.r.bdm = true,
        0o700 => {}
        _ => return Flow::NotHeld,
    }
    Flow::Next
}

fn vm_from_s(c: &mut Machine, _: &mut [u64], w: u16) -> Flow {
    if i(w) != 0 || k(w) != 0 {
        return Flow::NotHeld;
    }
    c.r.vm = c.r.sj(w);
    Flow::Next
}

fn ex(_: &mut Machine, _: &mut [u64], w: u16) -> Flow {
    match ijk(w) {
        0 => Flow::NormalExit,
        _ => Flow::NotHeld,
    }
}

fn jump_b(c: &mut Machine, _: &mut [u64], w: u16) -> Flow {
    if i(w) != 0 {
        return Flow::NotHeld;
    }
    c.r.p = c.r.b[jk(w)];
    Flow::Next
}

// 006 to 017: branches, and the 24-bit constant.

fn jump(c: &mut Machine, memory: &mut [u64], w: u16) -> Flow {
    if high_i(w) {
        return Flow::NotHeld;
    }
    let Some(m) = c.second(memory) else {
        return Flow::SecondOutside;
    };
    c.r.p = ijkm(w, m);
    Flow::Next
}

fn return_jump(c: &mut Machine, memory: &mut [u64], w: u16) -> Flow {
    if high_i(w) {
        return Flow::NotHeld;
    }
    let Some(m) = c.second(memory) else {
        return Flow::SecondOutside;
    };
    c.r.b[0] = c.r.p;
    c.r.p = ijkm(w, m);
    Flow::Next
}

/// A conditional branch; with the high bit of i set it is no branch at all but
/// a constant for Ah, A0 being then the true register.
#[inline(always)]
fn branch(c: &mut Machine, memory: &mut [u64], w: u16, taken: bool) -> Flow {
    let Some(m) = c.second(memory) else {
        return Flow::SecondOutside;
    };
    if high_i(w) {
        c.r.a[h(w)] = ijkm(w, m);
    } else if taken {
        c.r.p = ijkm(w, m);
    }
    Flow::Next
}

fn jaz(c: &mut Machine, memory: &mut [u64], w: u16) -> Flow {
    let taken = c.r.a[0] == 0;
    branch(c, memory, w, taken)
}

fn jan(c: &mut Machine, memory: &mut [u64], w: u16) -> Flow {
    let taken = c.r.a[0] != 0;
    branch(c, memory, w, taken)
}

fn jap(c: &mut Machine, memory: &mut [u64], w: u16) -> Flow {
    let taken = c.r.a[0] >> 23 == 0;
    branch(c, memory, w, taken)
}

fn jam(c: &mut Machine, memory: &mut [u64], w: u16) -> Flow {
    let taken = c.r.a[0] >> 23 != 0;
    branch(c, memory, w, taken)
}

fn jsz(c: &mut Machine, memory: &mut [u64], w: u16) -> Flow {
    let taken = c.r.s[0] == 0;
    branch(c, memory, w, taken)
}

fn jsn(c: &mut Machine, memory: &mut [u64], w: u16) -> Flow {
    let taken = c.r.s[0] != 0;
    branch(c, memory, w, taken)
}

fn jsp(c: &mut Machine, memory: &mut [u64], w: u16) -> Flow {
    let taken = c.r.s[0] >> 63 == 0;
    branch(c, memory, w, taken)
}

fn jsm(c: &mut Machine, memory: &mut [u64], w: u16) -> Flow {
    let taken = c.r.s[0] >> 63 != 0;
    branch(c, memory, w, taken)
}

// 020 to 032: address registers.

fn a_jkm(c: &mut Machine, memory: &mut [u64], w: u16) -> Flow {
    match c.second(memory) {
        Some(m) => c.r.set_a(i(w), jkm(w, m)),
        None => Flow::SecondOutside,
    }
}

fn a_not_jkm(c: &mut Machine, memory: &mut [u64], w: u16) -> Flow {
    match c.second(memory) {
        Some(m) => c.r.set_a(i(w), !jkm(w, m)),
        None => Flow::SecondOutside,
    }
}

fn a_jk(c: &mut Machine, _: &mut [u64], w: u16) -> Flow {
    c.r.set_a(i(w), jk(w) as u32)
}

fn a_from_s(c: &mut Machine, _: &mut [u64], w: u16) -> Flow {
    let value = match (j(w), k(w)) {
        (_, 0) => c.r.sj(w) as u32,
        (0, 1) => c.r.vl,
        _ => return Flow::NotHeld,
    };
    c.r.set_a(i(w), value)
}

fn a_from_b(c: &mut Machine, _: &mut [u64], w: u16) -> Flow {
    c.r.set_a(i(w), c.r.b[jk(w)])
}

fn b_from_a(c: &mut Machine, _: &mut [u64], w: u16) -> Flow {
    c.r.b[jk(w)] = c.r.a[i(w)];
    Flow::Next
}

fn a_ones(c: &mut Machine, _: &mut [u64], w: u16) -> Flow {
    let ones = c.r.sj(w).count_ones();
    match k(w) {
        0 => c.r.set_a(i(w), ones),
        1 => c.r.set_a(i(w), ones & 1),
        _ => Flow::NotHeld,
    }
}

fn a_zeros(c: &mut Machine, _: &mut [u64], w: u16) -> Flow {
    match k(w) {
        0 => c.r.set_a(i(w), c.r.sj(w).leading_zeros()),
        _ => Flow::NotHeld,
    }
}

fn a_add(c: &mut Machine, _: &mut [u64], w: u16) -> Flow {
    c.r.set_a(i(w), c.r.aj(w).wrapping_add(c.r.ak(w)))
}

fn a_sub(c: &mut Machine, _: &mut [u64], w: u16) -> Flow {
    c.r.set_a(i(w), c.r.aj(w).wrapping_sub(c.r.ak(w)))
}

fn a_mul(c: &mut Machine, _: &mut [u64], w: u16) -> Flow {
    // The low 24 bits of a product depend on no bit above the 32nd.
    c.r.set_a(i(w), c.r.aj(w).wrapping_mul(c.r.ak(w)))
}

// 034 to 037: block moves of B and T registers.

/// Reads `count` words from the address in A0 on and gives each to `put` with
/// its number; a word outside reads as zero.
#[inline(always)]
fn read_words(
    c: &mut Machine,
    memory: &[u64],
    (count, stride): (u32, u32),
    put: impl Fn(&mut State, usize, u64),
) -> Flow {
    let (mut first, mut address) = (None, c.r.a[0]);
    for n in 0..count as usize {
        let value = match c.data.word(address) {
            Some(at) => memory[at],
            None => {
                first = first.or(Some(c.missed(address, n)));
                0
            }
        };
        put(c.r, n, value);
        address = address.wrapping_add(stride);
    }
    first.map_or(Flow::Next, Flow::OperandOutside)
}

/// Stores `count` words from the address in A0 on, each got from `get` by its
/// number; a word outside is dropped.
#[inline(always)]
fn store_words(
    c: &mut Machine,
    memory: &mut [u64],
    (count, stride): (u32, u32),
    get: impl Fn(&State, usize) -> u64,
) -> Flow {
    let (mut first, mut address) = (None, c.r.a[0]);
    for n in 0..count as usize {
        match c.data.word(address) {
            Some(at) => memory[at] = get(c.r, n),
            None => first = first.or(Some(c.missed(address, n))),
        }
        address = address.wrapping_add(stride);
    }
    first.map_or(Flow::Next, Flow::OperandOutside)
}

/// The words of a transfer as one piece of memory, where they stand in a row,
/// all inside, and go to `room` registers without beginning again. That is
/// what most do, and then the words are moved at once.
#[inline(always)]
fn piece(c: &Machine, (count, stride): (u32, u32), room: usize) -> Option<Range<usize>> {
    if stride != 1 || count as usize > room {
        return None;
    }
    c.data.words(c.r.a[0], count)
}

/// The shape of a block move: the low seven bits of Ai, words in a row.
#[inline(always)]
fn block(c: &Machine, w: u16) -> (u32, u32) {
    (c.r.a[i(w)] & 0o177, 1)
}

fn b_read(c: &mut Machine, memory: &mut [u64], w: u16) -> Flow {
    let (shape, first) = (block(c, w), jk(w));
    if let Some(words) = piece(c, shape, 64 - first) {
        for (b, word) in c.r.b[first..].iter_mut().zip(&memory[words]) {
            *b = *word as u32 & MASK24;
        }
        return Flow::Next;
    }
    read_words(c, memory, shape, |r, n, value| {
        r.b[(first + n) & 63] = value as u32 & MASK24;
    })
}

fn b_store(c: &mut Machine, memory: &mut [u64], w: u16) -> Flow {
    let (shape, first) = (block(c, w), jk(w));
    if let Some(words) = piece(c, shape, 64 - first) {
        for (word, b) in memory[words].iter_mut().zip(&c.r.b[first..]) {
            *word = u64::from(*b);
        }
        return Flow::Next;
    }
    store_words(c, memory, shape, |r, n| u64::from(r.b[(first + n) & 63]))
}

fn t_read(c: &mut Machine, memory: &mut [u64], w: u16) -> Flow {
    let (shape, first) = (block(c, w), jk(w));
    if let Some(words) = piece(c, shape, 64 - first) {
        c.r.t[first..first + words.len()].copy_from_slice(&memory[words]);
        return Flow::Next;
    }
    read_words(c, memory, shape, |r, n, value| {
        r.t[(first + n) & 63] = value;
    })
}

fn t_store(c: &mut Machine, memory: &mut [u64], w: u16) -> Flow {
    let (shape, first) = (block(c, w), jk(w));
    if let Some(words) = piece(c, shape, 64 - first) {
        let count = words.len();
        memory[words].copy_from_slice(&c.r.t[first..first + count]);
        return Flow::Next;
    }
    store_words(c, memory, shape, |r, n| r.t[(first + n) & 63])
}

// 040 to 061: scalar registers.

fn s_jkm(c: &mut Machine, memory: &mut [u64], w: u16) -> Flow {
    match c.second(memory) {
        Some(m) => c.r.set_s(i(w), u64::from(jkm(w, m))),
        None => Flow::SecondOutside,
    }
}

fn s_not_jkm(c: &mut Machine, memory: &mut [u64], w: u16) -> Flow {
    match c.second(memory) {
        Some(m) => c.r.set_s(i(w), !u64::from(jkm(w, m))),
        None => Flow::SecondOutside,
    }
}

fn s_mask_right(c: &mut Machine, _: &mut [u64], w: u16) -> Flow {
    c.r.set_s(i(w), u64::MAX >> jk(w))
}

fn s_mask_left(c: &mut Machine, _: &mut [u64], w: u16) -> Flow {
    c.r.set_s(i(w), !(u64::MAX >> jk(w)))
}

fn s_and(c: &mut Machine, _: &mut [u64], w: u16) -> Flow {
    c.r.set_s(i(w), c.r.sj(w) & c.r.sk(w))
}

fn s_and_not(c: &mut Machine, _: &mut [u64], w: u16) -> Flow {
    c.r.set_s(i(w), c.r.sj(w) & !c.r.sk(w))
}

fn s_xor(c: &mut Machine, _: &mut [u64], w: u16) -> Flow {
    c.r.set_s(i(w), c.r.sj(w) ^ c.r.sk(w))
}

fn s_equal(c: &mut Machine, _: &mut [u64], w: u16) -> Flow {
    c.r.set_s(i(w), !(c.r.sj(w) ^ c.r.sk(w)))
}

fn s_merge(c: &mut Machine, _: &mut [u64], w: u16) -> Flow {
    let mask = c.r.sk(w);
    let merged = c.r.sj(w) & mask | c.r.s[i(w)] & !mask;
    c.r.set_s(i(w), merged)
}

fn s_or(c: &mut Machine, _: &mut [u64], w: u16) -> Flow {
    c.r.set_s(i(w), c.r.sj(w) | c.r.sk(w))
}

fn left(value: u64, w: u16) -> u64 {
    value << jk(w)
}

/// The right shift by 64-jk is the high word of a left shift by jk.
fn right(value: u64, w: u16) -> u64 {
    (u128::from(value) << jk(w) >> 64) as u64
}

fn s0_left(c: &mut Machine, _: &mut [u64], w: u16) -> Flow {
    c.r.set_s(0, left(c.r.s[i(w)], w))
}

fn s0_right(c: &mut Machine, _: &mut [u64], w: u16) -> Flow {
    c.r.set_s(0, right(c.r.s[i(w)], w))
}

fn s_left(c: &mut Machine, _: &mut [u64], w: u16) -> Flow {
    c.r.set_s(i(w), left(c.r.s[i(w)], w))
}

fn s_right(c: &mut Machine, _: &mut [u64], w: u16) -> Flow {
    c.r.set_s(i(w), right(c.r.s[i(w)], w))
}

/// Two words as one number of 128 bits.
#[inline(always)]
fn join(high: u64, low: u64) -> u128 {
    u128::from(high) << 64 | u128::from(low)
}

/// The high word of a double left shift; `checked_shl` is none from 128 on.
#[inline(always)]
fn double_left(high: u64, low: u64, count: u32) -> u64 {
    (join(high, low).checked_shl(count).unwrap_or(0) >> 64) as u64
}

/// The low word of a double right shift.
#[inline(always)]
fn double_right(high: u64, low: u64, count: u32) -> u64 {
    join(high, low).checked_shr(count).unwrap_or(0) as u64
}

fn s_left_double(c: &mut Machine, _: &mut [u64], w: u16) -> Flow {
    let shifted = double_left(c.r.s[i(w)], c.r.sj(w), c.r.ak(w));
    c.r.set_s(i(w), shifted)
}

fn s_right_double(c: &mut Machine, _: &mut [u64], w: u16) -> Flow {
    let shifted = double_right(c.r.sj(w), c.r.s[i(w)], c.r.ak(w));
    c.r.set_s(i(w), shifted)
}

fn s_add(c: &mut Machine, _: &mut [u64], w: u16) -> Flow {
    c.r.set_s(i(w), c.r.sj(w).wrapping_add(c.r.sk(w)))
}

fn s_sub(c: &mut Machine, _: &mut [u64], w: u16) -> Flow {
    c.r.set_s(i(w), c.r.sj(w).wrapping_sub(c.r.sk(w)))
}

// 071 to 077: moves between scalar and other registers.

fn s_from_a(c: &mut Machine, _: &mut [u64], w: u16) -> Flow {
    let value = c.r.ak(w);
    match j(w) {
        0 => c.r.set_s(i(w), u64::from(value)),
        1 => {
            // Bit 2^23 moved to the top of 32 bits and back spreads the sign.
            let signed = (value << 8) as i32 >> 8;
            c.r.set_s(i(w), i64::from(signed) as u64)
        }
        _ => Flow::NotHeld,
    }
}

fn s_from_vm(c: &mut Machine, _: &mut [u64], w: u16) -> Flow {
    match jk(w) {
        0 => c.r.set_s(i(w), c.r.vm),
        1 => c.r.set_s(i(w), status(c.r)),
        _ => Flow::NotHeld,
    }
}

/// Status register SR0. Which processor and which cluster it is, bits 2^40,
/// 2^33 and 2^32, return 0 if not executed in monitor mode.
fn status(r: &State) -> u64 {
    let own = match r.mm {
        true => u64::from(r.processor) << 40 | u64::from(r.cln) << 32,
        false => 0,
    };
    u64::from(r.cln != 0) << 63
        | u64::from(r.ps) << 57
        | u64::from(r.fps) << 51
        | u64::from(r.ifp) << 50
        | u64::from(r.ior) << 49
        | u64::from(r.bdm) << 48
        | own
}

fn s_from_t(c: &mut Machine, _: &mut [u64], w: u16) -> Flow {
    c.r.set_s(i(w), c.r.t[jk(w)])
}

fn t_from_s(c: &mut Machine, _: &mut [u64], w: u16) -> Flow {
    c.r.t[jk(w)] = c.r.s[i(w)];
    Flow::Next
}

fn s_from_v(c: &mut Machine, _: &mut [u64], w: u16) -> Flow {
    let element = c.r.ak(w) as usize & 63;
    c.r.set_s(i(w), c.r.v[j(w)][element])
}

fn v_from_s(c: &mut Machine, _: &mut [u64], w: u16) -> Flow {
    let element = c.r.ak(w) as usize & 63;
    c.r.v[i(w)][element] = c.r.sj(w);
    Flow::Next
}

// 10h to 13h: scalar memory references.

/// The word address Ah+jkm, if the second parcel is inside.
#[inline(always)]
fn address(c: &mut Machine, memory: &[u64], w: u16) -> Option<u32> {
    let offset = jkm(w, c.second(memory)?);
    let index = match h(w) {
        0 => 0,
        n => c.r.a[n],
    };
    Some((index + offset) & MASK22)
}

fn load_a(c: &mut Machine, memory: &mut [u64], w: u16) -> Flow {
    let Some(address) = address(c, memory, w) else {
        return Flow::SecondOutside;
    };
    let Some(at) = c.data.word(address) else {
        c.r.a[i(w)] = 0;
        return Flow::OperandOutside(c.missed(address, 0));
    };
    c.r.set_a(i(w), memory[at] as u32)
}

fn store_a(c: &mut Machine, memory: &mut [u64], w: u16) -> Flow {
    let Some(address) = address(c, memory, w) else {
        return Flow::SecondOutside;
    };
    let Some(at) = c.data.word(address) else {
        return Flow::OperandOutside(c.missed(address, 0));
    };
    memory[at] = u64::from(c.r.a[i(w)]);
    Flow::Next
}

fn load_s(c: &mut Machine, memory: &mut [u64], w: u16) -> Flow {
    let Some(address) = address(c, memory, w) else {
        return Flow::SecondOutside;
    };
    let Some(at) = c.data.word(address) else {
        c.r.s[i(w)] = 0;
        return Flow::OperandOutside(c.missed(address, 0));
    };
    c.r.set_s(i(w), memory[at])
}

fn store_s(c: &mut Machine, memory: &mut [u64], w: u16) -> Flow {
    let Some(address) = address(c, memory, w) else {
        return Flow::SecondOutside;
    };
    let Some(at) = c.data.word(address) else {
        return Flow::OperandOutside(c.missed(address, 0));
    };
    memory[at] = c.r.s[i(w)];
    Flow::Next
}

// 140 to 157: vector work. Operands are copied first, so that every element is
// read as it stood before, whichever register the result goes to.

#[inline(always)]
fn vs(c: &mut Machine, w: u16, f: impl Fn(u64, u64) -> u64) -> Flow {
    let (x, y) = (c.r.sj(w), c.r.v[k(w)]);
    let length = c.r.vl as usize;
    for (to, y) in c.r.v[i(w)][..length].iter_mut().zip(&y) {
        *to = f(x, *y);
    }
    Flow::Next
}

#[inline(always)]
fn vv(c: &mut Machine, w: u16, f: impl Fn(u64, u64) -> u64) -> Flow {
    let (x, y) = (c.r.v[j(w)], c.r.v[k(w)]);
    let length = c.r.vl as usize;
    for ((to, x), y) in c.r.v[i(w)][..length].iter_mut().zip(&x).zip(&y) {
        *to = f(*x, *y);
    }
    Flow::Next
}

fn vs_and(c: &mut Machine, _: &mut [u64], w: u16) -> Flow {
    vs(c, w, |x, y| x & y)
}

fn vv_and(c: &mut Machine, _: &mut [u64], w: u16) -> Flow {
    vv(c, w, |x, y| x & y)
}

fn vs_or(c: &mut Machine, _: &mut [u64], w: u16) -> Flow {
    vs(c, w, |x, y| x | y)
}

fn vv_or(c: &mut Machine, _: &mut [u64], w: u16) -> Flow {
    vv(c, w, |x, y| x | y)
}

fn vs_xor(c: &mut Machine, _: &mut [u64], w: u16) -> Flow {
    vs(c, w, |x, y| x ^ y)
}

fn vv_xor(c: &mut Machine, _: &mut [u64], w: u16) -> Flow {
    vv(c, w, |x, y| x ^ y)
}

fn vs_add(c: &mut Machine, _: &mut [u64], w: u16) -> Flow {
    vs(c, w, u64::wrapping_add)
}

fn vv_add(c: &mut Machine, _: &mut [u64], w: u16) -> Flow {
    vv(c, w, u64::wrapping_add)
}

fn vs_sub(c: &mut Machine, _: &mut [u64], w: u16) -> Flow {
    vs(c, w, u64::wrapping_sub)
}

fn vv_sub(c: &mut Machine, _: &mut [u64], w: u16) -> Flow {
    vv(c, w, u64::wrapping_sub)
}

/// Takes element n of `x` where VM has a one at bit 63-n, else that of Vk.
#[inline(always)]
fn merge(c: &mut Machine, w: u16, x: &[u64; 64]) -> Flow {
    let (y, mut mask) = (c.r.v[k(w)], c.r.vm);
    let length = c.r.vl as usize;
    for ((to, x), y) in c.r.v[i(w)][..length].iter_mut().zip(x).zip(&y) {
        *to = if mask >> 63 == 1 { *x } else { *y };
        mask <<= 1;
    }
    Flow::Next
}

fn vs_merge(c: &mut Machine, _: &mut [u64], w: u16) -> Flow {
    let x = [c.r.sj(w); 64];
    merge(c, w, &x)
}

fn vv_merge(c: &mut Machine, _: &mut [u64], w: u16) -> Flow {
    let x = c.r.v[j(w)];
    merge(c, w, &x)
}

/// Works on each element of Vj by itself.
#[inline(always)]
fn each(c: &mut Machine, w: u16, f: impl Fn(u64) -> u64) -> Flow {
    let x = c.r.v[j(w)];
    let length = c.r.vl as usize;
    for (to, x) in c.r.v[i(w)][..length].iter_mut().zip(&x) {
        *to = f(*x);
    }
    Flow::Next
}

fn v_left(c: &mut Machine, _: &mut [u64], w: u16) -> Flow {
    match c.r.ak(w) {
        count @ 0..=63 => each(c, w, |x| x << count),
        _ => each(c, w, |_| 0),
    }
}

fn v_right(c: &mut Machine, _: &mut [u64], w: u16) -> Flow {
    match c.r.ak(w) {
        count @ 0..=63 => each(c, w, |x| x >> count),
        _ => each(c, w, |_| 0),
    }
}

fn v_left_double(c: &mut Machine, _: &mut [u64], w: u16) -> Flow {
    let (x, count) = (c.r.v[j(w)], c.r.ak(w));
    let length = c.r.vl as usize;
    let after = x[1..length].iter().chain(&[0]);
    for ((to, x), y) in c.r.v[i(w)][..length].iter_mut().zip(&x).zip(after) {
        *to = double_left(*x, *y, count);
    }
    Flow::Next
}

fn v_right_double(c: &mut Machine, _: &mut [u64], w: u16) -> Flow {
    let (x, count) = (c.r.v[j(w)], c.r.ak(w));
    let length = c.r.vl as usize;
    let mut before = 0;
    for (to, x) in c.r.v[i(w)][..length].iter_mut().zip(&x) {
        *to = double_right(before, *x, count);
        before = *x;
    }
    Flow::Next
}

// 174 to 177: counts, masks, vector memory references.

fn v_ones(c: &mut Machine, _: &mut [u64], w: u16) -> Flow {
    match k(w) {
        1 => each(c, w, |x| u64::from(x.count_ones())),
        2 => each(c, w, |x| u64::from(x.count_ones() & 1)),
        _ => Flow::NotHeld,
    }
}

/// Marks the elements that pass a test, element 0 at bit 2^63.
#[inline(always)]
fn mark(c: &mut Machine, w: u16, test: impl Fn(u64) -> bool) -> Flow {
    let length = c.r.vl as usize;
    let mut mask = 0;
    for x in &c.r.v[j(w)][..length] {
        mask = mask << 1 | u64::from(test(*x));
    }
    c.r.vm = mask << (64 - length);
    Flow::Next
}

fn v_mask(c: &mut Machine, _: &mut [u64], w: u16) -> Flow {
    if i(w) != 0 {
        return Flow::NotHeld;
    }
    match k(w) {
        0 => mark(c, w, |x| x == 0),
        1 => mark(c, w, |x| x != 0),
        2 => mark(c, w, |x| x >> 63 == 0),
        3 => mark(c, w, |x| x >> 63 == 1),
        _ => Flow::NotHeld,
    }
}

fn v_read(c: &mut Machine, memory: &mut [u64], w: u16) -> Flow {
    if j(w) != 0 {
        return Flow::NotHeld;
    }
    let shape = (c.r.vl, c.r.ak(w));
    if let Some(words) = piece(c, shape, 64) {
        c.r.v[i(w)][..words.len()].copy_from_slice(&memory[words]);
        return Flow::Next;
    }
    read_words(c, memory, shape, |r, n, value| {
        r.v[i(w)][n & 63] = value;
    })
}

fn v_store(c: &mut Machine, memory: &mut [u64], w: u16) -> Flow {
    if i(w) != 0 {
        return Flow::NotHeld;
    }
    let shape = (c.r.vl, c.r.ak(w));
    if let Some(words) = piece(c, shape, 64) {
        let count = words.len();
        memory[words].copy_from_slice(&c.r.v[j(w)][..count]);
        return Flow::Next;
    }
    store_words(c, memory, shape, |r, n| r.v[j(w)][n & 63])
}
