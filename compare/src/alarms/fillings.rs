//! The choices of the operands' undefined bits that a case is run with.

/// Undefined bits of both operands together up to which every filling is made.
pub const MOST_FOR_ALL: u32 = 12;

/// The data and V words of a and B.
#[derive(Clone, Copy)]
pub struct Operands {
    pub x: u32,
    pub v: u32,
    pub y: u32,
    pub w: u32,
}

/// Data for a and B: defined bits as they are, the others chosen.
pub type Filling = [u32; 2];

/// Every choice of the undefined bits of one word, beginning with noughts.
fn choices(x: u32, v: u32) -> impl Iterator<Item = u32> {
    let mut next = Some(0u32);
    std::iter::from_fn(move || {
        let chosen = next?;
        let after = chosen.wrapping_sub(v) & v;
        next = (after != 0).then_some(after);
        Some(x & !v | chosen)
    })
}

/// The bits of a word, one at a time.
fn bits(word: u32) -> impl Iterator<Item = u32> {
    (0..32).map(|k| 1 << k).filter(move |bit| word & bit != 0)
}

impl Operands {
    /// The filling that leaves the data what they are, which is always among those made.
    pub fn as_they_are(&self) -> Filling {
        [self.x, self.y]
    }

    /// How many bits of both together are undefined.
    pub fn undefined(&self) -> u32 {
        self.v.count_ones() + self.w.count_ones()
    }

    /// Is every filling made?
    pub fn all_are_made(&self) -> bool {
        self.undefined() <= MOST_FOR_ALL
    }

    pub fn fillings(&self, drawn: Filling) -> Vec<Filling> {
        if self.all_are_made() {
            self.all()
        } else {
            self.some(drawn)
        }
    }

    fn all(&self) -> Vec<Filling> {
        let Operands { x, v, y, w } = *self;
        choices(x, v).flat_map(|x| choices(y, w).map(move |y| [x, y])).collect()
    }

    /// Each ground, and each undefined bit turned against each of them. Every bit of a result that
    /// varies, varies among these:
    /// - MOV: it is one bit of B, which is turned.
    /// - AND: a bit is turned beside a 1, a defined one or that of the ground of ones.
    /// - OR: a bit is turned beside a 0, a defined one or that of the ground of noughts.
    /// - XOR: any bit that is turned turns it.
    /// - SHL, SHR, SAR: it is one bit of a, which is turned.
    /// - EQ: on the ground of equal words it is 1 unless defined bits differ, and 0 with a bit turned.
    /// - ADD: a bit that is turned turns its own place; elsewhere the carry varies, which is least with
    ///   noughts and greatest with ones.
    /// - SUB: likewise the borrow, with ones in a and noughts in B and the other way round.
    fn some(&self, drawn: Filling) -> Vec<Filling> {
        let Operands { v, w, .. } = *self;
        let mut fillings = Vec::new();
        for [x, y] in self.grounds(drawn) {
            fillings.push([x, y]);
            fillings.extend(bits(v).map(|bit| [x ^ bit, y]));
            fillings.extend(bits(w).map(|bit| [x, y ^ bit]));
        }
        fillings
    }

    /// Noughts, ones, one in a and the other in B, the data as they are, drawn bits, and words that are
    /// equal wherever they can be.
    fn grounds(&self, drawn: Filling) -> [Filling; 7] {
        const ONES: u32 = u32::MAX;
        let Operands { x, v, y, w } = *self;
        let equal = [x & w | y & !w, x];
        let chosen = [[0, 0], [ONES, ONES], [0, ONES], [ONES, 0], [x, y], drawn, equal];
        chosen.map(|[first, second]| [x & !v | first & v, y & !w | second & w])
    }
}
