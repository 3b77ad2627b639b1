//! Configurations and tables as words of memory, as the library for agents has them. Words hold what the structs cannot:
//! counts above the limits, and records past a count.

use crate::config::{Config, ConfigFault};
use crate::layout::{CONFIG_COUNT, CONFIG_GIC, CONFIG_RECORDS, REGION_WORDS, SET_WORDS, TABLE_COUNT, TABLE_ZONES, ZONE_WORDS};
use crate::limits::{MAX_IN_SET, MAX_REGIONS, MAX_ZONES};
use crate::region::Region;
use crate::table::{Table, Zone};

/// How many words a configuration is.
pub const CONFIG_WORDS: usize = CONFIG_RECORDS + MAX_REGIONS * REGION_WORDS;

/// How many words a table is.
pub const TABLE_WORDS: usize = TABLE_ZONES + MAX_ZONES * ZONE_WORDS;

/// A configuration as words.
pub type ConfigWords = [u64; CONFIG_WORDS];

/// A table as words.
pub type TableWords = [u64; TABLE_WORDS];

impl Config {
    /// The configuration that these words are, or why they are none: C1 to C3. The other faults are for [`Config::check`] to find.
    pub fn from_words(words: &ConfigWords) -> Result<Config, ConfigFault> {
        let (head, records) = words.split_at(CONFIG_RECORDS);
        let count = count_up_to(MAX_REGIONS, head[CONFIG_COUNT]).filter(|&count| count > 0).ok_or(ConfigFault::Count)?;
        let gic = count_up_to(count - 1, head[CONFIG_GIC]).ok_or(ConfigFault::GicPosition)?;
        if let Some(past) = regions(&records[count * REGION_WORDS..]).position(|record| record != Region::ZERO) {
            return Err(ConfigFault::NotZero { place: count + past });
        }
        Ok(Config { regions: regions(records).take(count).collect(), gic })
    }

    /// The words of a configuration of at most so many regions as it can have.
    pub fn to_words(&self) -> ConfigWords {
        let mut words = [0; CONFIG_WORDS];
        words[CONFIG_COUNT] = self.regions.len() as u64;
        words[CONFIG_GIC] = self.gic as u64;
        put_regions(&mut words[CONFIG_RECORDS..], &self.regions);
        words
    }
}

impl Table {
    /// The table that these words are, unless a count is above its limit, an id is no id or something unused is not zero.
    pub fn from_words(words: &TableWords) -> Option<Table> {
        let count = count_up_to(MAX_ZONES, words[TABLE_COUNT])?;
        let (used, unused) = words[TABLE_ZONES..].split_at(count * ZONE_WORDS);
        if !is_zero(unused) {
            return None;
        }
        let zones = used.chunks_exact(ZONE_WORDS).map(zone_from_words).collect::<Option<_>>()?;
        Some(Table { zones })
    }

    /// The words of a table within the limits.
    pub fn to_words(&self) -> TableWords {
        let mut words = [0; TABLE_WORDS];
        words[TABLE_COUNT] = self.zones.len() as u64;
        for (zone, words) in self.zones.iter().zip(words[TABLE_ZONES..].chunks_exact_mut(ZONE_WORDS)) {
            words[0] = zone.id.into();
            put_set(&mut words[1..1 + SET_WORDS], &zone.cpu);
            put_set(&mut words[1 + SET_WORDS..], &zone.iommu);
        }
        words
    }
}

fn zone_from_words(words: &[u64]) -> Option<Zone> {
    let (cpu, iommu) = words[1..].split_at(SET_WORDS);
    Some(Zone { id: u32::try_from(words[0]).ok()?, cpu: set_from_words(cpu)?, iommu: set_from_words(iommu)? })
}

fn set_from_words(words: &[u64]) -> Option<Vec<Region>> {
    let count = count_up_to(MAX_IN_SET, words[0])?;
    let (used, unused) = words[1..].split_at(count * REGION_WORDS);
    is_zero(unused).then(|| regions(used).collect())
}

fn count_up_to(most: usize, word: u64) -> Option<usize> {
    usize::try_from(word).ok().filter(|&count| count <= most)
}

fn is_zero(words: &[u64]) -> bool {
    words.iter().all(|&word| word == 0)
}

fn regions(words: &[u64]) -> impl Iterator<Item = Region> + '_ {
    words.chunks_exact(REGION_WORDS).map(|record| Region::from_numbers(record.try_into().expect("a record's words")))
}

fn put_set(words: &mut [u64], set: &[Region]) {
    words[0] = set.len() as u64;
    put_regions(&mut words[1..], set);
}

fn put_regions(words: &mut [u64], regions: &[Region]) {
    for (region, record) in regions.iter().zip(words.chunks_exact_mut(REGION_WORDS)) {
        record.copy_from_slice(&region.numbers());
    }
}

#[cfg(test)]
mod tests {
    use super::*;
    use crate::layout::config_record;

    fn gic_only() -> Config {
        Config { regions: vec![Region::new(0x0800_0000, 0x0800_0000, 0x1_0000, 3)], gic: 0 }
    }

    #[test]
    fn words_come_back() {
        let config = gic_only();
        assert_eq!(Config::from_words(&config.to_words()), Ok(config.clone()));
        let zones = vec![Zone { id: 5, cpu: vec![], iommu: config.regions.clone() }, Zone::empty(6)];
        let table = Table { zones };
        assert_eq!(Table::from_words(&table.to_words()), Some(table));
    }

    #[test]
    fn c1_c2_c3() {
        let sound = gic_only().to_words();
        let with = |at: usize, word: u64| {
            let mut words = sound;
            words[at] = word;
            Config::from_words(&words)
        };
        assert_eq!(with(0, 0), Err(ConfigFault::Count));
        assert_eq!(with(0, MAX_REGIONS as u64 + 1), Err(ConfigFault::Count));
        assert_eq!(with(0, u64::MAX), Err(ConfigFault::Count));
        assert_eq!(with(1, 1), Err(ConfigFault::GicPosition));
        assert_eq!(with(1, 1 << 32), Err(ConfigFault::GicPosition));
        assert_eq!(with(config_record(1), 1), Err(ConfigFault::NotZero { place: 1 }));
        assert_eq!(with(CONFIG_WORDS - 1, 1), Err(ConfigFault::NotZero { place: MAX_REGIONS - 1 }));
    }

    #[test]
    fn what_is_unused_is_zero() {
        let sound = Table { zones: vec![Zone::empty(5)] }.to_words();
        for at in 3..TABLE_WORDS {
            let mut words = sound;
            words[at] = 1;
            let is_count = at == 2 + SET_WORDS;
            assert_eq!(Table::from_words(&words).is_some(), is_count, "word {at}");
        }
    }
}
