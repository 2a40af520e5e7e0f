//! Numbers and processors drawn from a seed.

/// Numbers drawn from a seed, as the generator draws them.
pub struct Draw(peer::cases::Draw);

impl Draw {
    pub fn new(seed: u64) -> Draw {
        Draw(peer::cases::Draw::new(0xBE51DE, seed))
    }

    pub fn word(&mut self) -> u64 {
        self.0.next()
    }

    pub fn below(&mut self, bound: u64) -> u64 {
        self.0.below(bound)
    }

    pub fn bits(&mut self, count: u32) -> u32 {
        (self.word() >> (64 - count)) as u32
    }

    pub fn bit(&mut self) -> bool {
        self.bits(1) == 1
    }

    /// A base or a limit, mostly within a memory of 4,096 words.
    fn field(&mut self, mostly: u64) -> u32 {
        match self.below(8) {
            0 => self.bits(17),
            _ => (mostly + self.below(16)) as u32,
        }
    }

    /// A processor with any registers, all of their widths.
    pub fn state(&mut self, processor: u32) -> peer::State {
        let mut state = peer::State::clear(processor);
        state.a = [0; 8].map(|_| self.bits(24) >> self.below(24));
        state.b = [0; 64].map(|_| self.bits(24));
        state.s = [0; 8].map(|_| self.word());
        state.t = [0; 64].map(|_| self.word());
        state.v = [[0; 64]; 8].map(|v| v.map(|_: u64| self.word()));
        state.p = self.below(0x800) as u32;
        state.vl = 1 + self.bits(6);
        state.vm = self.word();
        state.xa = self.bits(8);
        state.iba = self.field(16);
        state.ila = self.field(100);
        state.dba = self.field(0);
        state.dla = self.field(112);
        state.mm = self.bit();
        state.ior = self.bit();
        state.ifp = self.bit();
        state.fps = self.bit();
        state.bdm = self.bit();
        state.ps = self.bit();
        state.cln = self.bits(2);
        state
    }

    /// Makes one number too wide, or the processor's number bad.
    pub fn spoil(&mut self, state: &mut peer::State) {
        let more = 1 + self.bits(4);
        match self.below(12) {
            0 => state.p += more << 24,
            1 => state.xa += more << 8,
            2 => state.vl = 0,
            3 => state.vl = 64 + more,
            4 => state.iba += more << 17,
            5 => state.ila += more << 17,
            6 => state.dba += more << 17,
            7 => state.dla += more << 17,
            8 => state.cln += more << 2,
            9 => state.a[self.below(8) as usize] += more << 24,
            10 => state.b[self.below(64) as usize] += more << 24,
            _ => state.processor = 2 + more,
        }
    }
}
