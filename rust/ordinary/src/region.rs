use crate::limits::{GUEST_REACH, PAGE, PHYS_REACH};
use crate::table::Side;

/// A guest (virtual) address.
#[derive(Clone, Copy, Debug, PartialEq, Eq)]
pub struct Guest(pub u64);

/// A physical address.
#[derive(Clone, Copy, Debug, PartialEq, Eq)]
pub struct Phys(pub u64);

/// What may be done with a region: read 1, write 2, execute 4.
#[derive(Clone, Copy, Debug, PartialEq, Eq)]
pub struct Rights(pub u64);

impl Rights {
    /// The right to write.
    pub const WRITE: u64 = 2;
    /// The right to execute.
    pub const EXECUTE: u64 = 4;
    /// All rights that there are.
    pub const ALL: u64 = 1 | Rights::WRITE | Rights::EXECUTE;

    fn has(self, rights: u64) -> bool {
        self.0 & rights == rights
    }
}

/// A stretch of guest addresses and the stretch of physical addresses behind it.
#[derive(Clone, Copy, Debug, PartialEq, Eq)]
pub struct Region {
    /// Where it starts in guest addresses.
    pub v: Guest,
    /// Where it starts in physical addresses.
    pub p: Phys,
    /// How many addresses it covers.
    pub size: u64,
    /// What may be done with it.
    pub rights: Rights,
}

impl Region {
    /// How many numbers a region has.
    pub const NUMBERS: usize = 4;

    /// The region whose numbers are all 0.
    pub const ZERO: Region = Region::from_numbers([0; Region::NUMBERS]);

    /// A region from its numbers.
    pub const fn new(v: u64, p: u64, size: u64, rights: u64) -> Region {
        Region { v: Guest(v), p: Phys(p), size, rights: Rights(rights) }
    }

    /// A region from its numbers, in the order in which they stand among words and bytes.
    pub const fn from_numbers([v, p, size, rights]: [u64; Region::NUMBERS]) -> Region {
        Region::new(v, p, size, rights)
    }

    /// Its numbers, in that order.
    pub const fn numbers(&self) -> [u64; Region::NUMBERS] {
        [self.v.0, self.p.0, self.size, self.rights.0]
    }

    /// Whether the size is above 0, v, p and size are multiples of a page, and there is a right and nothing but rights.
    pub fn is_well_formed(&self) -> bool {
        let Rights(rights) = self.rights;
        self.size > 0 && (self.v.0 | self.p.0 | self.size) % PAGE == 0 && rights > 0 && rights & !Rights::ALL == 0
    }

    /// Whether it has a right that its side must not have: to execute for devices, to write and execute for the processor.
    pub fn is_excessive(&self, side: Side) -> bool {
        match side {
            Side::Cpu => self.rights.has(Rights::WRITE | Rights::EXECUTE),
            Side::Iommu => self.rights.has(Rights::EXECUTE),
        }
    }

    /// Whether each end, as a whole number, is within the reach of its kind of address.
    pub fn is_in_reach(&self) -> bool {
        let ends_by = |reach: u64, start: u64| start <= reach && self.size <= reach - start;
        ends_by(GUEST_REACH, self.v.0) && ends_by(PHYS_REACH, self.p.0)
    }

    /// Whether some physical address is covered by both.
    pub fn overlaps_physically(&self, other: &Region) -> bool {
        overlap(self.p.0, self.size, other.p.0, other.size)
    }

    /// Whether some guest address is covered by both.
    pub fn overlaps_in_guest(&self, other: &Region) -> bool {
        overlap(self.v.0, self.size, other.v.0, other.size)
    }

    /// How far into the region the address is, if the region covers it.
    pub fn offset_of(&self, address: Guest) -> Option<u64> {
        address.0.checked_sub(self.v.0).filter(|&offset| offset < self.size)
    }
}

/// Whether two stretches share an address. The later start decides, by how far it is from the earlier: no end is computed.
fn overlap(a: u64, a_size: u64, b: u64, b_size: u64) -> bool {
    if a <= b {
        b - a < a_size && b_size > 0
    } else {
        a - b < b_size && a_size > 0
    }
}

#[cfg(test)]
mod tests {
    use super::*;

    fn overlap_by_whole_numbers(a: u64, a_size: u64, b: u64, b_size: u64) -> bool {
        let (a, b) = (u128::from(a), u128::from(b));
        a.max(b) < (a + u128::from(a_size)).min(b + u128::from(b_size))
    }

    #[test]
    fn overlap_is_that_of_whole_numbers() {
        let numbers = [0, 1, 2, 3, 4, u64::MAX - 2, u64::MAX - 1, u64::MAX];
        for a in numbers {
            for b in numbers {
                for s in numbers {
                    for t in numbers {
                        assert_eq!(overlap(a, s, b, t), overlap_by_whole_numbers(a, s, b, t), "{a} {s} {b} {t}");
                    }
                }
            }
        }
    }

    #[test]
    fn a_region_overlaps_the_one_it_encloses() {
        let outer = Region::new(0, 0x10000, 0x4000, 3);
        let inner = Region::new(0, 0x11000, 0x1000, 3);
        assert!(outer.overlaps_physically(&inner) && inner.overlaps_physically(&outer));
    }

    #[test]
    fn neighbours_do_not_overlap() {
        let low = Region::new(0x1000, 0x1000, 0x1000, 3);
        let high = Region::new(0x2000, 0x2000, 0x1000, 3);
        assert!(!low.overlaps_physically(&high) && !high.overlaps_in_guest(&low));
    }

    #[test]
    fn form() {
        assert!(Region::new(0, 0, 0x1000, 3).is_well_formed());
        assert!(!Region::new(0, 0, 0, 0).is_well_formed());
        assert!(!Region::new(0, 0, 0x1800, 3).is_well_formed());
        assert!(!Region::new(1, 0, 0x1000, 3).is_well_formed());
        assert!(!Region::new(0, 0x800, 0x1000, 3).is_well_formed());
        for rights in 0..=16 {
            assert_eq!(Region::new(0, 0, 0x1000, rights).is_well_formed(), (1..8).contains(&rights), "{rights}");
        }
        assert!(!Region::new(0, 0, 0x1000, (1 << 32) + 3).is_well_formed());
    }

    #[test]
    fn rights() {
        for rights in 1..8 {
            let region = Region::new(0, 0, 0x1000, rights);
            assert_eq!(region.is_excessive(Side::Cpu), rights >= 6, "{rights}");
            assert_eq!(region.is_excessive(Side::Iommu), rights >= 4, "{rights}");
        }
    }

    #[test]
    fn reach() {
        assert!(Region::new(0, PHYS_REACH - PAGE, PAGE, 3).is_in_reach());
        assert!(Region::new(GUEST_REACH - PAGE, 0, PAGE, 3).is_in_reach());
        assert!(Region::new(0, 0, GUEST_REACH, 3).is_in_reach());
        assert!(!Region::new(0, PHYS_REACH - PAGE, 2 * PAGE, 3).is_in_reach());
        assert!(!Region::new(GUEST_REACH - PAGE, 0, 2 * PAGE, 3).is_in_reach());
        assert!(!Region::new(0, PHYS_REACH, PAGE, 3).is_in_reach());
        assert!(!Region::new(GUEST_REACH, 0, PAGE, 3).is_in_reach());
        assert!(!Region::new(PHYS_REACH - PAGE, 0, PAGE, 3).is_in_reach());
        assert!(!Region::new(0, PAGE.wrapping_neg(), 2 * PAGE, 3).is_in_reach());
        assert!(!Region::new(PAGE.wrapping_neg(), 0, 2 * PAGE, 3).is_in_reach());
    }

    #[test]
    fn offsets() {
        let region = Region::new(0x1000, 0, 0x1000, 3);
        assert_eq!(region.offset_of(Guest(0xfff)), None);
        assert_eq!(region.offset_of(Guest(0x1000)), Some(0));
        assert_eq!(region.offset_of(Guest(0x1fff)), Some(0xfff));
        assert_eq!(region.offset_of(Guest(0x2000)), None);
    }
}
