//! Packet numbers: 24 bits that go round, compared by distance only.

#[derive(Clone, Copy, PartialEq, Eq, Debug)]
pub struct Psn(u32);

impl Psn {
    pub const BITS: u32 = 24;
    pub const COUNT: u32 = 1 << Self::BITS;
    /// The farthest that N may lie from U.
    pub const REACH: u32 = Self::COUNT / 2 - 1;

    /// `None` if the number has more than 24 bits.
    pub fn new(number: u64) -> Option<Psn> {
        (number < u64::from(Self::COUNT)).then_some(Psn(number as u32))
    }

    pub fn number(self) -> u32 {
        self.0
    }

    /// Steps from here up to `to`.
    pub fn distance(self, to: Psn) -> u32 {
        to.0.wrapping_sub(self.0) % Self::COUNT
    }

    pub fn plus(self, steps: u32) -> Psn {
        Psn(self.0.wrapping_add(steps) % Self::COUNT)
    }

    pub fn next(self) -> Psn {
        self.plus(1)
    }

    /// The one of the two that is farther from here.
    pub fn further(self, one: Psn, other: Psn) -> Psn {
        if self.distance(one) < self.distance(other) {
            other
        } else {
            one
        }
    }
}

#[cfg(test)]
mod tests {
    use super::Psn;

    fn psn(number: u64) -> Psn {
        Psn::new(number).expect("24 bits")
    }

    #[test]
    fn width() {
        assert_eq!(psn(16_777_215).number(), 16_777_215);
        assert_eq!(Psn::new(16_777_216), None);
        assert_eq!(Psn::new(u64::MAX), None);
        assert_eq!(Psn::REACH, 8_388_607);
    }

    #[test]
    fn distances_go_round() {
        assert_eq!(psn(5).distance(psn(5)), 0);
        assert_eq!(psn(5).distance(psn(9)), 4);
        assert_eq!(psn(5).distance(psn(4)), 16_777_215);
        assert_eq!(psn(16_777_214).distance(psn(2)), 4);
        assert_eq!(psn(16_777_215).next(), psn(0));
        assert_eq!(psn(16_777_214).plus(8_388_607), psn(8_388_605));
    }

    #[test]
    fn further_goes_by_distance() {
        assert_eq!(psn(16_777_214).further(psn(16_777_215), psn(1)), psn(1));
        assert_eq!(psn(16_777_214).further(psn(1), psn(16_777_215)), psn(1));
        assert_eq!(psn(0).further(psn(1), psn(16_777_215)), psn(16_777_215));
    }
}
