//! The regions of document 01's desk examples; G is the GIC's.

use ordinary::Region;

pub const A: Region = Region::new(0x4000_0000, 0x8000_0000, 0x20_0000, 3);
pub const B: Region = Region::new(0x4000_0000, 0x8020_0000, 0x20_0000, 3);
// The logs do without it.
#[allow(dead_code)]
pub const C: Region = Region::new(0x4010_0000, 0x9000_0000, 0x20_0000, 3);
pub const G: Region = Region::new(0x0800_0000, 0x0800_0000, 0x1_0000, 3);
