//! The registers of one processor, and their form in an exchange package.

/// Low bits of an address register or a parcel address.
pub const MASK24: u32 = 0xFF_FFFF;
/// Low bits of a word address.
pub const MASK22: u32 = 0x3F_FFFF;
/// Low bits of a base or limit register.
pub const MASK17: u32 = 0x1_FFFF;

/// Everything a processor holds. A number may be too wide for its register
/// only in a state handed in from outside; such a state is refused.
#[derive(Clone, PartialEq, Eq, Debug)]
pub struct State {
    pub a: [u32; 8],
    pub s: [u64; 8],
    pub p: u32,
    pub vl: u32,
    pub vm: u64,
    pub xa: u32,
    pub iba: u32,
    pub ila: u32,
    pub dba: u32,
    pub dla: u32,
    pub mm: bool,
    pub ior: bool,
    pub ifp: bool,
    pub fps: bool,
    pub bdm: bool,
    pub ps: bool,
    pub cln: u32,
    pub processor: u32,
    pub b: [u32; 64],
    pub t: [u64; 64],
    pub v: [[u64; 64]; 8],
}

impl State {
    /// A processor with all registers clear, VL being 64 since it is never 0.
    pub fn clear(processor: u32) -> State {
        State {
            a: [0; 8],
            s: [0; 8],
            p: 0,
            vl: 64,
            vm: 0,
            xa: 0,
            iba: 0,
            ila: 0,
            dba: 0,
            dla: 0,
            mm: false,
            ior: false,
            ifp: false,
            fps: false,
            bdm: false,
            ps: false,
            cln: 0,
            processor,
            b: [0; 64],
            t: [0; 64],
            v: [[0; 64]; 8],
        }
    }

    /// Whether every number fits its register and VL is 1 to 64.
    pub fn fits(&self) -> bool {
        let narrow = |n: &u32| *n <= MASK24;
        let field = |n: u32| n <= MASK17;
        self.a.iter().all(narrow)
            && self.b.iter().all(narrow)
            && narrow(&self.p)
            && self.xa <= 0xFF
            && field(self.iba)
            && field(self.ila)
            && field(self.dba)
            && field(self.dla)
            && self.cln <= 3
            && (1..=64).contains(&self.vl)
    }

    /// The five modes as one number, MM being 1 and BDM 16.
    pub fn modes(&self) -> u32 {
        u32::from(self.mm)
            | u32::from(self.ior) << 1
            | u32::from(self.ifp) << 2
            | u32::from(self.fps) << 3
            | u32::from(self.bdm) << 4
    }

    /// The sixteen words of an exchange package that save this state.
    pub fn save(&self, flags: u16) -> [u64; 16] {
        let mut package = [0; 16];
        for n in 0..8 {
            package[n] = u64::from(self.a[n]);
            package[n + 8] = self.s[n];
        }
        package[0] |= u64::from(self.p) << 24;
        package[1] |= u64::from(self.iba) << 29;
        package[2] |= u64::from(self.ila) << 29 | u64::from(self.modes()) << 24;
        package[3] |= u64::from(self.xa) << 40;
        package[3] |= u64::from(self.vl) << 33 | u64::from(flags) << 24;
        package[4] |= u64::from(self.dba) << 29 | u64::from(self.ps) << 28;
        package[4] |= u64::from(self.cln) << 24;
        package[5] |= u64::from(self.dla) << 29;
        package
    }

    /// Takes the registers that an exchange package holds. B, T, V, VM and the
    /// processor number stay; flags and unused bits are dropped.
    pub fn load(&mut self, package: &[u64; 16]) {
        for n in 0..8 {
            self.a[n] = package[n] as u32 & MASK24;
            self.s[n] = package[n + 8];
        }
        let field = |n: usize| (package[n] >> 29) as u32 & MASK17;
        let bit = |n: usize, place: u32| package[n] >> place & 1 == 1;
        self.p = (package[0] >> 24) as u32 & MASK24;
        self.iba = field(1);
        self.ila = field(2);
        self.dba = field(4);
        self.dla = field(5);
        self.mm = bit(2, 24);
        self.ior = bit(2, 25);
        self.ifp = bit(2, 26);
        self.fps = bit(2, 27);
        self.bdm = bit(2, 28);
        self.xa = (package[3] >> 40) as u32 & 0xFF;
        self.vl = vector_length((package[3] >> 33) as u32);
        self.ps = bit(4, 28);
        self.cln = (package[4] >> 24) as u32 & 3;
    }
}

/// The vector length that a number sets: its low six bits, zero meaning 64.
pub fn vector_length(number: u32) -> u32 {
    match number & 63 {
        0 => 64,
        n => n,
    }
}
