//! The map listing: request 10 of document 02.

use std::fmt::Write;

use crate::config::Config;
use crate::limits::PAGE;
use crate::receiver::BufferShort;
use crate::request::Refusal;
use crate::table::{Side, Table};

/// Why no listing is written, in the order in which it is asked.
#[derive(Clone, Copy, Debug, PartialEq, Eq)]
pub enum ListingRefusal {
    /// 1 or 2: configuration or table are unsound.
    Own(Refusal),
    /// 28: the listing does not fit into the buffer.
    BufferShort,
}

impl ListingRefusal {
    /// The document's number.
    pub fn number(&self) -> u32 {
        match self {
            ListingRefusal::Own(refusal) => refusal.number(),
            ListingRefusal::BufferShort => BufferShort.number(),
        }
    }
}

impl Table {
    /// A line for each region: zones in table order, CPU then IOMMU; zone id, side, guest start, physical start, size, rights, and the physical
    /// start minus the guest start in pages.
    pub fn listing(&self) -> String {
        let mut text = String::new();
        for zone in &self.zones {
            for (side, name) in [(Side::Cpu, "CPU"), (Side::Iommu, "IOMMU")] {
                for region in zone.set(side) {
                    let (v, p) = (region.v.0, region.p.0);
                    let shift = (i128::from(p) - i128::from(v)) / i128::from(PAGE);
                    let rights = region.rights.0;
                    writeln!(text, "{} {name} {v:#018x} {p:#018x} {:#018x} {rights} {shift}", zone.id, region.size)
                        .expect("a string takes all text");
                }
            }
        }
        text
    }

    /// Writes the listing into the buffer's start, and says how long it is. A refusal leaves the buffer as it was.
    pub fn list(&self, config: &Config, buffer: &mut [u8]) -> Result<usize, ListingRefusal> {
        self.check(config).map_err(ListingRefusal::Own)?;
        let text = self.listing();
        let place = buffer.get_mut(..text.len()).ok_or(ListingRefusal::BufferShort)?;
        place.copy_from_slice(text.as_bytes());
        Ok(text.len())
    }
}
