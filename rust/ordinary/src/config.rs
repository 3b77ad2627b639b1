use crate::limits::MAX_REGIONS;
use crate::region::Region;

/// The regions that zones may be given, and which of them is the GIC's.
#[derive(Clone, Debug, PartialEq, Eq)]
pub struct Config {
    /// The regions, in their order.
    pub regions: Vec<Region>,
    /// The position of the GIC's region.
    pub gic: usize,
}

/// The first fault of a configuration: C1 to C6, with the places that it has.
#[derive(Clone, Copy, Debug, PartialEq, Eq)]
pub enum ConfigFault {
    /// C1: no region, or more than a configuration can have.
    Count,
    /// C2: the GIC's position is not below the count.
    GicPosition,
    /// C3: a record past the count is not all zero.
    NotZero {
        /// The record's position.
        place: usize,
    },
    /// C4: not well formed.
    Form {
        /// The region's position.
        place: usize,
    },
    /// C5: out of reach.
    Reach {
        /// The region's position.
        place: usize,
    },
    /// C6: overlaps an earlier region physically.
    Overlap {
        /// The region's position.
        place: usize,
        /// The lowest earlier position that it overlaps.
        earlier: usize,
    },
}

impl ConfigFault {
    /// The document's number, 1 for C1.
    pub fn number(&self) -> u32 {
        match self {
            ConfigFault::Count => 1,
            ConfigFault::GicPosition => 2,
            ConfigFault::NotZero { .. } => 3,
            ConfigFault::Form { .. } => 4,
            ConfigFault::Reach { .. } => 5,
            ConfigFault::Overlap { .. } => 6,
        }
    }

    /// The two place numbers, 0 where unused.
    pub fn places(&self) -> [usize; 2] {
        match *self {
            ConfigFault::Count | ConfigFault::GicPosition => [0, 0],
            ConfigFault::NotZero { place } | ConfigFault::Form { place } | ConfigFault::Reach { place } => [place, 0],
            ConfigFault::Overlap { place, earlier } => [place, earlier],
        }
    }
}

impl Config {
    /// The first fault, if there is one.
    pub fn check(&self) -> Result<(), ConfigFault> {
        if self.regions.is_empty() || self.regions.len() > MAX_REGIONS {
            return Err(ConfigFault::Count);
        }
        if self.gic >= self.regions.len() {
            return Err(ConfigFault::GicPosition);
        }
        (0..self.regions.len()).try_for_each(|place| self.check_region(place))
    }

    fn check_region(&self, place: usize) -> Result<(), ConfigFault> {
        let region = &self.regions[place];
        if !region.is_well_formed() {
            return Err(ConfigFault::Form { place });
        }
        if !region.is_in_reach() {
            return Err(ConfigFault::Reach { place });
        }
        match self.regions[..place].iter().position(|earlier| earlier.overlaps_physically(region)) {
            Some(earlier) => Err(ConfigFault::Overlap { place, earlier }),
            None => Ok(()),
        }
    }

    /// The GIC's region. The configuration must be sound.
    pub(crate) fn gic_region(&self) -> &Region {
        &self.regions[self.gic]
    }

    /// Whether the region is one of the configured ones.
    pub(crate) fn has(&self, region: &Region) -> bool {
        self.regions.contains(region)
    }
}

#[cfg(test)]
mod tests {
    use super::*;
    use crate::limits::{GUEST_REACH, MAX_REGIONS, PAGE, PHYS_REACH};

    fn check(gic: usize, regions: &[Region]) -> Result<(), ConfigFault> {
        Config { regions: regions.to_vec(), gic }.check()
    }

    fn page(number: u64) -> Region {
        Region::new(0, number * PAGE, PAGE, 3)
    }

    #[test]
    fn counts_and_the_gic() {
        let all: Vec<Region> = (0..=MAX_REGIONS as u64).map(page).collect();
        assert_eq!(check(0, &[]), Err(ConfigFault::Count));
        assert_eq!(check(999, &all), Err(ConfigFault::Count));
        assert_eq!(check(MAX_REGIONS, &all[..MAX_REGIONS]), Err(ConfigFault::GicPosition));
        assert_eq!(check(MAX_REGIONS - 1, &all[..MAX_REGIONS]), Ok(()));
    }

    #[test]
    fn faults_are_found_position_by_position() {
        let bad = Region::new(0, 1, PAGE, 3);
        for high in [Region::new(0, PHYS_REACH, PAGE, 3), Region::new(GUEST_REACH, 0, PAGE, 3)] {
            assert_eq!(check(0, &[high, bad]), Err(ConfigFault::Reach { place: 0 }));
            assert_eq!(check(0, &[bad, high]), Err(ConfigFault::Form { place: 0 }));
        }
        assert_eq!(check(0, &[page(0), page(0), bad]), Err(ConfigFault::Overlap { place: 1, earlier: 0 }));
    }

    #[test]
    fn an_overlap_names_the_lowest_earlier_position() {
        let over_both = Region::new(0, PAGE, 2 * PAGE, 3);
        assert_eq!(check(0, &[page(9), page(2), page(1), over_both]), Err(ConfigFault::Overlap { place: 3, earlier: 1 }));
    }
}
