//! The library's functions with their answers as numbers, as C has them: see `include/peatmitten.h`. The types of this crate stand
//! on these. All unsafe code of the crate is here.
#![allow(unsafe_code)]

pub mod bank;

use crate::config::Config;
use crate::plan::State;
use crate::region::Region;
use crate::table::Table;

mod library {
    use super::{Config, Table};

    extern "C" {
        pub fn peatmitten_layout_256_32_16_512_4(which: u32) -> u64;
        pub fn peatmitten_check_config(config: *const Config, places: *mut [u64; 2]) -> u32;
        pub fn peatmitten_check_table(config: *const Config, table: *const Table) -> u32;
        pub fn peatmitten_request(
            config: *const Config,
            table: *mut Table,
            kind: u32,
            zone: u32,
            v: u64,
            p: u64,
            size: u64,
            rights: u64,
        ) -> u32;
        pub fn peatmitten_translate_words(
            config: *const Config,
            table: *const Table,
            zone: u32,
            side: u32,
            address: u64,
            stretch: *mut [u64; 2],
        ) -> u32;
        pub fn peatmitten_edition(plan: *const u8, length: usize, answer: *mut [u64; 1]) -> u32;
        pub fn peatmitten_read(plan: *const u8, length: usize, place: *mut [u64; 1]) -> u32;
        pub fn peatmitten_apply_words(
            config: *const Config,
            table: *mut Table,
            edition: *mut u32,
            plan: *const u8,
            length: usize,
            places: *mut [u64; 2],
        ) -> u32;
        pub fn peatmitten_beside_words(
            config: *const Config,
            current: *const Table,
            other: *mut Table,
            mark: u32,
            plan: *const u8,
            length: usize,
            answer: *mut [u64; 3],
        ) -> u32;
        pub fn peatmitten_take_piece(
            receiver: *mut [u64; 2],
            buffer: *mut u8,
            buffer_length: usize,
            piece: *const u8,
            length: usize,
        ) -> u32;
        pub fn peatmitten_end_words(
            config: *const Config,
            table: *mut Table,
            edition: *mut u32,
            receiver: *mut [u64; 2],
            buffer: *const u8,
            buffer_length: usize,
            places: *mut [u64; 2],
        ) -> u32;
        pub fn peatmitten_write_words(
            config: *const Config,
            table: *mut Table,
            edition: u32,
            requests: *const u8,
            length: usize,
            buffer: *mut u8,
            buffer_length: usize,
            places: *mut [u64; 2],
        ) -> u32;
        pub fn peatmitten_zones_words(
            config: *const Config,
            table: *const Table,
            buffer: *mut u8,
            buffer_length: usize,
            place: *mut [u64; 1],
        ) -> u32;
        pub fn peatmitten_base_zones(plan: *const u8, length: usize, stretch: *mut [u64; 2]) -> u32;
        pub fn peatmitten_lacking(
            first: *const u8,
            first_length: usize,
            second: *const u8,
            second_length: usize,
            bytes: *mut [u64; 2],
        ) -> u64;
        pub fn peatmitten_wanted_words(
            config: *const Config,
            from: *const Table,
            to: *const Table,
            buffer: *mut u8,
            buffer_length: usize,
            count: *mut [u64; 1],
        ) -> u32;
        pub fn peatmitten_list(
            config: *const Config,
            table: *const Table,
            buffer: *mut u8,
            buffer_length: usize,
            length: *mut [u64; 1],
        ) -> u32;
        pub fn peatmitten_check_log(
            config: *mut Config,
            table: *mut Table,
            log: *const u8,
            log_length: usize,
            buffer: *mut u8,
            buffer_length: usize,
            places: *mut [u64; 3],
        ) -> u32;
    }
}

// SAFETY, of every call below: the library asks for pointers that are valid, aligned, not null and, where it writes, not shared. Each
// comes from a reference or a slice that is held until the call returns. `Config` and `Table` are transparent over their words, so
// their memory is what the library's header says.

/// The limits and sizes that the library and this crate must share, in the order of the header; 0 past the last. They are in the name of
/// the library's function, so that this crate does not link with another library.
pub fn layout(which: u32) -> u64 {
    unsafe { library::peatmitten_layout_256_32_16_512_4(which) }
}

#[used]
static LAYOUT_NEEDED: unsafe extern "C" fn(u32) -> u64 = library::peatmitten_layout_256_32_16_512_4;

/// What stands in an answer's place before the library writes it: no answer, so that one which it left out would show.
const UNWRITTEN: u64 = u64::MAX;

/// What a call of the library answers, and what it writes.
fn with_written<A, const N: usize>(call: impl FnOnce(&mut [u64; N]) -> A) -> (A, [u64; N]) {
    let mut written = [UNWRITTEN; N];
    let answer = call(&mut written);
    (answer, written)
}

/// The number of a configuration's first fault, or 0, and its two places.
pub fn check_config(config: &Config) -> (u32, [u64; 2]) {
    with_written(|places| unsafe { library::peatmitten_check_config(config, places) })
}

/// 1 for a sound table under a sound configuration, else 0.
pub fn check_table(config: &Config, table: &Table) -> u32 {
    unsafe { library::peatmitten_check_table(config, table) }
}

/// The number of a request's refusal, or 0. The region is v, p, size, rights.
pub fn request(config: &Config, table: &mut Table, kind: u32, zone: u32, [v, p, size, rights]: [u64; Region::WORDS]) -> u32 {
    unsafe { library::peatmitten_request(config, table, kind, zone, v, p, size, rights) }
}

/// The number of a translation's refusal, or 0, and the physical address with how many bytes of the covering region there are from it
/// on. Side 0 is the CPU, any other the IOMMU.
pub fn translate_words(config: &Config, table: &Table, zone: u32, side: u32, address: u64) -> (u32, [u64; 2]) {
    with_written(|stretch| unsafe { library::peatmitten_translate_words(config, table, zone, side, address, stretch) })
}

/// The number of the first fault of a plan's marks, or 0, and its offset, or the base edition.
pub fn edition(plan: &[u8]) -> (u32, u64) {
    let (number, [answer]) = with_written(|answer| unsafe { library::peatmitten_edition(plan.as_ptr(), plan.len(), answer) });
    (number, answer)
}

/// The number of a plan's first fault, or 0, and its offset, or that of the first request record.
pub fn read(plan: &[u8]) -> (u32, u64) {
    let (number, [place]) = with_written(|place| unsafe { library::peatmitten_read(plan.as_ptr(), plan.len(), place) });
    (number, place)
}

/// The number of a plan's refusal, or 0, its place and its inner number. Table and edition change only where the number is 0.
pub fn apply_words(config: &Config, table: &mut Table, edition: &mut u32, plan: &[u8]) -> (u32, [u64; 2]) {
    with_written(|places| unsafe { library::peatmitten_apply_words(config, table, edition, plan.as_ptr(), plan.len(), places) })
}

/// The same of a whole state.
pub fn apply(state: &mut State, plan: &[u8]) -> (u32, [u64; 2]) {
    apply_words(&state.config, &mut state.table, &mut state.edition, plan)
}

/// The number of a plan's refusal, or 0; the mark to write, which is one higher after 0; the place and the inner number. The current table is
/// not written. After 0 the next one lies in `other`; after 20 to 26 what lay there; after any other number what nobody may rely on.
pub fn beside_words(config: &Config, current: &Table, other: &mut Table, mark: u32, plan: &[u8]) -> (u32, [u64; 3]) {
    with_written(|answer| unsafe {
        library::peatmitten_beside_words(config, current, other, mark, plan.as_ptr(), plan.len(), answer)
    })
}

/// 0, or 28 where the buffer is shorter than the longest plan. The receiver is how many bytes are stored, and 0 unless more came.
pub fn take_piece(receiver: &mut [u64; 2], buffer: &mut [u8], piece: &[u8]) -> u32 {
    unsafe { library::peatmitten_take_piece(receiver, buffer.as_mut_ptr(), buffer.len(), piece.as_ptr(), piece.len()) }
}

/// The number of the refusal of what came in pieces, or 0, its place and its inner number. Table and edition change only where the number
/// is 0; the receiver is emptied unless it is 28.
pub fn end_words(config: &Config, table: &mut Table, edition: &mut u32, receiver: &mut [u64; 2], buffer: &[u8]) -> (u32, [u64; 2]) {
    with_written(|places| unsafe {
        library::peatmitten_end_words(config, table, edition, receiver, buffer.as_ptr(), buffer.len(), places)
    })
}

/// The same of a whole state.
pub fn end(state: &mut State, receiver: &mut [u64; 2], buffer: &[u8]) -> (u32, [u64; 2]) {
    end_words(&state.config, &mut state.table, &mut state.edition, receiver, buffer)
}

/// The number for which no plan is written, or 0, its place and its inner number. The requests are the bytes of records as a plan holds
/// them; bytes after the last whole one are not looked at. The buffer changes only where the number is 0, and the table is afterwards what
/// it was.
pub fn write_words(config: &Config, table: &mut Table, edition: u32, requests: &[u8], buffer: &mut [u8]) -> (u32, [u64; 2]) {
    with_written(|places| unsafe {
        library::peatmitten_write_words(
            config,
            table,
            edition,
            requests.as_ptr(),
            requests.len(),
            buffer.as_mut_ptr(),
            buffer.len(),
            places,
        )
    })
}

/// The number for which a terminal's zones are not written, or 0, and how many bytes their section has, else 0. The buffer changes only where
/// the number is 0.
pub fn zones_words(config: &Config, table: &Table, buffer: &mut [u8]) -> (u32, u64) {
    let (number, [place]) =
        with_written(|place| unsafe { library::peatmitten_zones_words(config, table, buffer.as_mut_ptr(), buffer.len(), place) });
    (number, place)
}

/// The number of a plan's first fault, or 0; where its own zones section begins, at its count, or the offset of the fault; and how many bytes
/// the section has, 0 where there is a fault.
pub fn base_zones(plan: &[u8]) -> (u32, [u64; 2]) {
    with_written(|stretch| unsafe { library::peatmitten_base_zones(plan.as_ptr(), plan.len(), stretch) })
}

/// The first place where the second stretch lacks the same byte, or the first one's length, and the byte that each has there: 256 where it has
/// ended.
pub fn lacking(first: &[u8], second: &[u8]) -> (u64, [u64; 2]) {
    with_written(|bytes| unsafe { library::peatmitten_lacking(first.as_ptr(), first.len(), second.as_ptr(), second.len(), bytes) })
}

/// The number for which no requests are listed that lead from one table to the other, or 0, and how many there are. They are records as a plan
/// holds them. The buffer changes only where the number is 0.
pub fn list_words(config: &Config, from: &Table, to: &Table, buffer: &mut [u8]) -> (u32, u64) {
    let (number, [count]) = with_written(|count| unsafe {
        library::peatmitten_wanted_words(config, from, to, buffer.as_mut_ptr(), buffer.len(), count)
    });
    (number, count)
}

/// The number for which no listing is written, or 0, and how many bytes it has, or 0. The buffer changes only where the number is 0.
pub fn list(config: &Config, table: &Table, buffer: &mut [u8]) -> (u32, u64) {
    let (number, [length]) =
        with_written(|length| unsafe { library::peatmitten_list(config, table, buffer.as_mut_ptr(), buffer.len(), length) });
    (number, length)
}

/// What the check of a log finds, or 0; its place, what the rules say and what was claimed. The buffer changes only where the number is 0. Of a
/// log that reads whole, `config` and `table` are afterwards its configuration and the table at which the check ended; on 20 to 22 they are
/// what they were.
pub fn check_log(config: &mut Config, table: &mut Table, log: &[u8], buffer: &mut [u8]) -> (u32, [u64; 3]) {
    with_written(|places| unsafe {
        library::peatmitten_check_log(config, table, log.as_ptr(), log.len(), buffer.as_mut_ptr(), buffer.len(), places)
    })
}
