//! A device's driver copies bytes of its zone, wherever they lie, as `examples/c/copy_stretch.c` does: it asks once for each region that
//! they go through, copies as many as remain there, and asks again at the end. `cargo run --example copy_stretch` prints a line for each
//! region, then the bytes.

use std::error::Error;

use peatmitten::{Config, Guest, Physical, Refusal, Region, Request, Side, Table, Translated};

const ZONE: u32 = 5;
const PAGE: usize = 4096;
const MEMORY_START: u64 = 0x8000_0000;

const GIC: Region = Region::new(0x0800_0000, 0x0800_0000, 0x1_0000, 3);
/// Their guest addresses adjoin. The second lies before the first, and the first ends where the memory does.
const FIRST: Region = Region::new(0x4000_0000, MEMORY_START + PAGE as u64, 2 * PAGE as u64, 3);
const SECOND: Region = Region::new(0x4000_2000, MEMORY_START, PAGE as u64, 3);

/// Where the zone left ten bytes that lie in both.
const MESSAGE: Guest = Guest(0x4000_1ffc);

struct Driver {
    config: Config,
    table: Table,
    memory: [u8; 3 * PAGE],
}

impl Driver {
    fn new() -> Result<Driver, Refusal> {
        let config = Config::new(&[GIC, FIRST, SECOND], 0).expect("few enough regions");
        let mut table = Table::new();
        for request in
            [Request::add_zone(ZONE), Request::insert(ZONE, Side::Iommu, FIRST), Request::insert(ZONE, Side::Iommu, SECOND)]
        {
            table.request(&config, request)?;
        }
        let mut memory = [b'.'; 3 * PAGE];
        memory[3 * PAGE - 4..].copy_from_slice(b"Peat");
        memory[..6].copy_from_slice(b"mitten");
        Ok(Driver { config, table, memory })
    }

    /// The bytes of the memory from a physical address on.
    fn bytes(&self, from: Physical, count: usize) -> &[u8] {
        let start = (from.0 - MEMORY_START) as usize;
        &self.memory[start..start + count]
    }

    /// Fills `to` with the bytes that the zone's devices have from an address on, and tells of each piece where it began, where that came out
    /// and how long it was.
    fn copy(&self, from: Guest, to: &mut [u8], mut tell: impl FnMut(Guest, Physical, usize)) -> Result<(), Refusal> {
        let mut copied = 0;
        while copied < to.len() {
            let address = Guest(from.0 + copied as u64);
            let Translated { physical, remaining } = self.table.translate(&self.config, ZONE, Side::Iommu, address)?;
            let rest = &mut to[copied..];
            let count = rest.len().min(remaining.0 as usize);
            rest[..count].copy_from_slice(self.bytes(physical, count));
            tell(address, physical, count);
            copied += count;
        }
        Ok(())
    }
}

fn main() -> Result<(), Box<dyn Error>> {
    let mut message = [0; 10];
    Driver::new()?.copy(MESSAGE, &mut message, |address, physical, count| {
        println!("{:#x}: {count} bytes from {:#x}", address.0, physical.0);
    })?;
    println!("{}", std::str::from_utf8(&message)?);
    Ok(())
}

#[cfg(test)]
mod tests {
    use super::*;

    fn copied(from: u64, count: usize) -> Result<(Vec<u8>, Vec<(u64, u64, usize)>), Refusal> {
        let (mut bytes, mut pieces) = (vec![0; count], Vec::new());
        Driver::new()?.copy(Guest(from), &mut bytes, |address, physical, count| pieces.push((address.0, physical.0, count)))?;
        Ok((bytes, pieces))
    }

    #[test]
    fn a_stretch_across_both_regions_is_asked_for_twice() {
        let (bytes, pieces) = copied(MESSAGE.0, 10).expect("both are the zone's");
        assert_eq!(bytes, b"Peatmitten");
        assert_eq!(pieces, [(0x4000_1ffc, 0x8000_2ffc, 4), (0x4000_2000, 0x8000_0000, 6)]);
    }

    #[test]
    fn all_of_both_regions_and_no_page_more() {
        let (bytes, pieces) = copied(0x4000_0000, 3 * PAGE).expect("both are the zone's");
        assert_eq!(bytes, [&Driver::new().expect("a terminal").memory[PAGE..], b"mitten", &[b'.'; PAGE - 6]].concat());
        assert_eq!(pieces, [(0x4000_0000, 0x8000_1000, 2 * PAGE), (0x4000_2000, 0x8000_0000, PAGE)]);
        assert_eq!(copied(0x4000_0000, 3 * PAGE + 1), Err(Refusal::NotCovered));
    }

    #[test]
    fn a_stretch_within_one_region_is_asked_for_once() {
        let (bytes, pieces) = copied(0x4000_2fff, 1).expect("the zone's last byte");
        assert_eq!((&bytes[..], &pieces[..]), (&b"."[..], &[(0x4000_2fff, 0x8000_0fff, 1)][..]));
        assert_eq!(copied(0x3fff_ffff, 2), Err(Refusal::NotCovered));
        assert_eq!(copied(0x4000_3000, 0).map(|(_, pieces)| pieces), Ok(Vec::new()));
    }
}
