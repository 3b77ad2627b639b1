use std::fmt;

use crate::answers::ConfigFault;
use crate::limits::MOST_REGIONS;
use crate::raw;
use crate::region::Region;

const COUNT: usize = 0;
const GIC: usize = 1;
const REGIONS: usize = 2;

/// How many words a configuration is.
pub const CONFIG_WORDS: usize = REGIONS + MOST_REGIONS * Region::WORDS;

/// The regions that zones may be given, and which of them is the GIC's, as words of memory: the count, the GIC's position, then
/// [`MOST_REGIONS`] regions. It may hold any numbers; [`Config::check`] says whether it is sound.
///
/// ```
/// use peatmitten::{Config, ConfigFault, Region};
///
/// let low = Region::new(0x1000, 0x1000, 0x2000, 3);
/// let high = Region::new(0x1000, 0x2000, 0x2000, 3);
/// let config = Config::new(&[low, high], 0).expect("few enough regions");
/// assert_eq!(config.check(), Err(ConfigFault::Overlap { place: 1, earlier: 0 }));
/// ```
#[derive(Clone, PartialEq, Eq)]
#[repr(transparent)]
pub struct Config {
    words: [u64; CONFIG_WORDS],
}

impl Config {
    /// A configuration of these regions, of which the GIC's stands at the position `gic`. None if there are more than
    /// [`MOST_REGIONS`].
    pub fn new(regions: &[Region], gic: u64) -> Option<Config> {
        let mut words = [0; CONFIG_WORDS];
        words[COUNT] = regions.len() as u64;
        words[GIC] = gic;
        let records = words.get_mut(REGIONS..REGIONS + regions.len() * Region::WORDS)?;
        for (record, region) in records.chunks_exact_mut(Region::WORDS).zip(regions) {
            record.copy_from_slice(&region.words());
        }
        Some(Config { words })
    }

    /// A configuration of any words.
    pub const fn from_words(words: [u64; CONFIG_WORDS]) -> Config {
        Config { words }
    }

    /// The words.
    pub const fn words(&self) -> &[u64; CONFIG_WORDS] {
        &self.words
    }

    /// The first fault, if the configuration is not sound.
    pub fn check(&self) -> Result<(), ConfigFault> {
        let (number, places) = raw::check_config(self);
        ConfigFault::from_library(number, places)
    }

    /// The position of the GIC's region.
    pub const fn gic(&self) -> u64 {
        self.words[GIC]
    }

    /// The regions in order, at most [`MOST_REGIONS`].
    pub fn regions(&self) -> impl Iterator<Item = Region> + '_ {
        let count = usize::try_from(self.words[COUNT]).unwrap_or(MOST_REGIONS);
        Region::in_words(&self.words[REGIONS..]).take(count)
    }
}

impl fmt::Debug for Config {
    fn fmt(&self, f: &mut fmt::Formatter) -> fmt::Result {
        let regions: Vec<Region> = self.regions().collect();
        f.debug_struct("Config").field("count", &self.words[COUNT]).field("gic", &self.gic()).field("regions", &regions).finish()
    }
}
