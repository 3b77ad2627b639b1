//! Plan files to have at hand: examples/README.md says what each holds.

use ordinary::Region;

use crate::fields::Plan;
use crate::files::{first, rich, PlanFiles};
use crate::given::{of_region, of_zone, zone, A, ADD_ZONE, B, C, CPU_INSERT, G, IOMMU_INSERT};

/// The desk's configuration, with region A in zone 5.
fn desk() -> Plan {
    rich().with_edition(7).with_regions(&[A, B, C, G]).with_zones(&[zone(5, &[A], &[A, G])]).with_requests(&[])
}

/// A terminal with code, data and devices' memory, far apart: three zones that hold regions after the plan.
fn map() -> Plan {
    let code = Region::new(0, 0x10_0000_0000, 0x1_0000, 5);
    let shared = Region::new(0x6000_0000, 0xc000_0000, 0x80_0000, 3);
    let keys = Region::new(0xff_ffff_f000, 0, 0x1000, 1);
    let log = Region::new(0x7000_0000, 0x8000_0000_0000, 0x40_0000, 2);
    let requests = [
        of_zone(ADD_ZONE, 5),
        of_region(CPU_INSERT, 5, A),
        of_region(CPU_INSERT, 5, code),
        of_region(IOMMU_INSERT, 5, A),
        of_region(IOMMU_INSERT, 5, G),
        of_region(CPU_INSERT, 6, B),
        of_region(IOMMU_INSERT, 6, shared),
        of_zone(ADD_ZONE, 200),
        of_region(CPU_INSERT, 200, keys),
        of_region(IOMMU_INSERT, 200, log),
    ];
    let base = desk().with_regions(&[A, B, C, G, code, shared, keys, log]);
    base.with_zones(&[zone(6, &[shared], &[G]), zone(7, &[], &[])]).with_requests(&requests)
}

pub fn add(files: &mut PlanFiles) {
    files.add("first", first().bytes()).is(0, 1);
    let to_another_zone = [of_zone(ADD_ZONE, 6), of_region(CPU_INSERT, 6, B), of_region(IOMMU_INSERT, 6, A), of_zone(ADD_ZONE, 7)];
    files.add("refused", desk().with_requests(&to_another_zone).bytes()).refused(2, 14);
    files.add("map", map().bytes()).is(0, 10);
    files.add("cut", first().bytes()[..80].to_vec()).is(20, 60);
    let two_hold_a = [zone(5, &[A], &[A, G]), zone(6, &[A], &[])];
    files.add("other_zones", desk().with_zones(&[zone(5, &[B], &[A, G])]).bytes()).is(0, 0);
    files.add("unsound", desk().with_zones(&two_hold_a).bytes()).is(2, 0);
}

#[cfg(test)]
mod tests {
    use super::*;
    use ordinary::layout::REGION_BYTES;

    /// Document 01's whole plan in the second format, without the zero bytes of its last region.
    const FIRST_PRINTED: &str = "03000000 00000000 00000000 02000000 01000000 0000000800000000 0000000800000000 0000010000000000 \
                                 0300000000000000 00000000 01000000 01000000 05000000";

    #[test]
    fn the_first_is_the_documents() {
        let bytes = first().bytes();
        let (printed, zeros) = bytes.split_at(bytes.len() - REGION_BYTES);
        let digits: String = FIRST_PRINTED.split_whitespace().collect();
        assert_eq!(printed.iter().map(|byte| format!("{byte:02x}")).collect::<String>(), digits);
        assert_eq!(zeros, [0; REGION_BYTES]);
    }
}
