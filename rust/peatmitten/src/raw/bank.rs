//! The functions of the second library, for terminals with owners: see `include/peatmitten_bank.h`. The types of [`crate::bank`] stand on these.

use super::with_written;
use crate::bank::Owners;
use crate::config::Config;
use crate::region::Region;
use crate::table::Table;

mod library {
    use super::{Config, Owners, Region, Table};

    extern "C" {
        pub fn peatmitten_bank_layout_256_32_16_512_4(which: u32) -> u64;
        pub fn peatmitten_bank_check_config(config: *const Config, owners: *const Owners, places: *mut [u64; 2]) -> u32;
        pub fn peatmitten_bank_check_table(config: *const Config, owners: *const Owners, table: *const Table) -> u32;
        pub fn peatmitten_bank_request(
            config: *const Config,
            owners: *const Owners,
            table: *mut Table,
            kind: u32,
            zone: u32,
            region: *const [u64; Region::WORDS],
        ) -> u32;
        pub fn peatmitten_bank_translate_words(
            config: *const Config,
            owners: *const Owners,
            table: *const Table,
            zone: u32,
            side: u32,
            address: u64,
            stretch: *mut [u64; 2],
        ) -> u32;
        pub fn peatmitten_bank_read(plan: *const u8, length: usize, place: *mut [u64; 1]) -> u32;
        pub fn peatmitten_bank_apply_words(
            config: *const Config,
            owners: *const Owners,
            table: *mut Table,
            edition: *mut u32,
            plan: *const u8,
            length: usize,
            places: *mut [u64; 2],
        ) -> u32;
        pub fn peatmitten_bank_beside_words(
            config: *const Config,
            owners: *const Owners,
            current: *const Table,
            other: *mut Table,
            mark: u32,
            plan: *const u8,
            length: usize,
            answer: *mut [u64; 3],
        ) -> u32;
    }
}

// SAFETY, of every call below: as of those of the first library. Owners are an array of 32-bit numbers, as the header says.

/// The limits and sizes that the library and this crate must share, in the order of the header; 0 past the last. They are in the name of
/// the library's function, so that this crate does not link with another library.
pub fn layout(which: u32) -> u64 {
    unsafe { library::peatmitten_bank_layout_256_32_16_512_4(which) }
}

#[used]
static LAYOUT_NEEDED: unsafe extern "C" fn(u32) -> u64 = library::peatmitten_bank_layout_256_32_16_512_4;

/// The number of a configuration's first fault, or 0, and its two places.
pub fn check_config(config: &Config, owners: &Owners) -> (u32, [u64; 2]) {
    with_written(|places| unsafe { library::peatmitten_bank_check_config(config, owners, places) })
}

/// 1 for a sound table under a sound configuration, in which every zone holds what it may; else 0.
pub fn check_table(config: &Config, owners: &Owners, table: &Table) -> u32 {
    unsafe { library::peatmitten_bank_check_table(config, owners, table) }
}

/// The number of a request's refusal, or 0. The region is v, p, size, rights.
pub fn request(config: &Config, owners: &Owners, table: &mut Table, kind: u32, zone: u32, region: &[u64; Region::WORDS]) -> u32 {
    unsafe { library::peatmitten_bank_request(config, owners, table, kind, zone, region) }
}

/// The number of a translation's refusal, or 0, and the physical address with how many bytes of the covering region there are from it
/// on. Side 0 is the CPU, any other the IOMMU.
pub fn translate_words(config: &Config, owners: &Owners, table: &Table, zone: u32, side: u32, address: u64) -> (u32, [u64; 2]) {
    with_written(|stretch| unsafe { library::peatmitten_bank_translate_words(config, owners, table, zone, side, address, stretch) })
}

/// The number of the first fault of a plan with owners, or 0, and its offset, or that of the first request record.
pub fn read(plan: &[u8]) -> (u32, u64) {
    let (number, [place]) = with_written(|place| unsafe { library::peatmitten_bank_read(plan.as_ptr(), plan.len(), place) });
    (number, place)
}

/// The number of a plan's refusal, or 0, its place and its inner number. Table and edition change only where the number is 0.
pub fn apply_words(config: &Config, owners: &Owners, table: &mut Table, edition: &mut u32, plan: &[u8]) -> (u32, [u64; 2]) {
    with_written(|places| unsafe {
        library::peatmitten_bank_apply_words(config, owners, table, edition, plan.as_ptr(), plan.len(), places)
    })
}

/// The number of a plan's refusal, or 0; the mark to write, the place and the inner number, as [`beside_words`](super::beside_words) has them.
pub fn beside_words(
    config: &Config,
    owners: &Owners,
    current: &Table,
    other: &mut Table,
    mark: u32,
    plan: &[u8],
) -> (u32, [u64; 3]) {
    with_written(|answer| unsafe {
        library::peatmitten_bank_beside_words(config, owners, current, other, mark, plan.as_ptr(), plan.len(), answer)
    })
}
