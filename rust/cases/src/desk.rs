//! Document 01's desk examples on requests, and more of their kind, as field logs: what was asked one after another, the number of each and the zones
//! at the end, all by hand. The program `log_check` answers the files; `vectors/DESK.md` says which example stands in which.

use ordinary::limits::{MAX_ZONES, PAGE};
use ordinary::{encode_zones, Record, Region, Table, Zone};

use crate::files::rich;
use crate::given::{
    of_region, of_zone, with_rights, with_size, zone, A, ADD_ZONE, ALL_RIGHTS, B, C, CPU_INSERT, CPU_REMOVE, G, IOMMU_INSERT,
    IOMMU_REMOVE, REMOVE_ZONE,
};
use crate::logs::Log;

// Beside A in one set.
const D: Region = Region::new(0x5000_0000, 0xa000_0000, PAGE, 3);
const E: Region = Region::new(0x5000_1000, 0xb000_0000, PAGE, 3);

/// A log with what is answered to it: the number, and on 0 the zones at the end.
pub struct DeskLog {
    pub name: &'static str,
    pub log: Log,
    pub number: u32,
    pub zones: Vec<Zone>,
}

impl DeskLog {
    /// The end zones as a section; nothing where the log is refused.
    pub fn section(&self) -> Vec<u8> {
        if self.number == 0 {
            encode_zones(&Table { zones: self.zones.clone() })
        } else {
            Vec::new()
        }
    }
}

/// All of them, by name.
pub fn desk_logs() -> Vec<DeskLog> {
    [zones(), regions(), order(), refused(), rights()].into_iter().flatten().collect()
}

/// A log at a configuration whose GIC is at 3, and zones 5 and 6, empty: each request with its number, and the zones at the end.
fn run(name: &'static str, regions: &[Region], asked: &[(Record, u32)], zones: &[Zone]) -> DeskLog {
    let (requests, claims): (Vec<Record>, Vec<u32>) = asked.iter().copied().unzip();
    let base = rich().with_edition(0).with_regions(regions).with_zones(&[Zone::empty(5), Zone::empty(6)]);
    DeskLog { name, log: Log::new(base.with_requests(&requests), &claims), number: 0, zones: zones.to_vec() }
}

/// The same at the document's configuration.
fn at_desk(name: &'static str, asked: &[(Record, u32)], zones: &[Zone]) -> DeskLog {
    run(name, &[A, B, C, G], asked, zones)
}

fn zones() -> Vec<DeskLog> {
    vec![
        at_desk(
            "desk-zones-added",
            &[(of_zone(ADD_ZONE, 5), 5), (of_zone(ADD_ZONE, 256), 4), (of_zone(ADD_ZONE, 255), 0)],
            &[Zone::empty(5), Zone::empty(6), Zone::empty(255)],
        ),
        at_desk(
            "desk-zone-with-gic-removed",
            &[
                (of_region(IOMMU_INSERT, 5, G), 0),
                (of_zone(REMOVE_ZONE, 5), 8),
                (of_region(IOMMU_REMOVE, 5, G), 0),
                (of_zone(REMOVE_ZONE, 5), 0),
            ],
            &[Zone::empty(6)],
        ),
        one_zone_too_many(),
    ]
}

/// Ids from 0 on, besides 5 and 6, until the table is full; one more, and again after 6 is removed.
fn one_zone_too_many() -> DeskLog {
    let one_more = MAX_ZONES as u32;
    let ids: Vec<u32> = (0..one_more).filter(|id| ![5, 6].contains(id)).collect();
    let mut asked: Vec<(Record, u32)> = ids.iter().map(|&id| (of_zone(ADD_ZONE, id), 0)).collect();
    asked.extend([(of_zone(ADD_ZONE, one_more), 7), (of_zone(REMOVE_ZONE, 6), 0), (of_zone(ADD_ZONE, one_more), 0)]);
    let zones: Vec<Zone> = [5].into_iter().chain(ids).chain([one_more]).map(Zone::empty).collect();
    at_desk("desk-one-zone-too-many", &asked, &zones)
}

fn regions() -> Vec<DeskLog> {
    vec![
        at_desk(
            "desk-a-on-both-sides",
            &[
                (of_region(CPU_INSERT, 5, A), 0),
                (of_region(CPU_INSERT, 5, A), 13),
                (of_region(IOMMU_INSERT, 5, A), 0),
                (of_region(IOMMU_INSERT, 6, A), 14),
                (of_region(CPU_INSERT, 6, A), 14),
                (of_region(CPU_INSERT, 6, B), 0),
            ],
            &[zone(5, &[A], &[A]), zone(6, &[B], &[])],
        ),
        at_desk(
            "desk-gic",
            &[
                (of_region(CPU_INSERT, 5, G), 12),
                (of_region(IOMMU_INSERT, 5, G), 0),
                (of_region(IOMMU_INSERT, 6, G), 0),
                (of_region(IOMMU_INSERT, 5, G), 13),
            ],
            &[zone(5, &[], &[G]), zone(6, &[], &[G])],
        ),
        at_desk(
            "desk-c-crosses-a",
            &[(of_region(CPU_INSERT, 5, A), 0), (of_region(CPU_INSERT, 5, C), 15), (of_region(CPU_INSERT, 6, C), 0)],
            &[zone(5, &[A], &[]), zone(6, &[C], &[])],
        ),
        form_and_reach(),
    ]
}

/// Regions of no form or out of reach, each in the CPU set of 5: none is configured.
fn form_and_reach() -> DeskLog {
    let asked = [
        (Region::ZERO, 9),
        (Region::new(0, 0, 0x1800, 3), 9),
        (Region::new(0, PAGE.wrapping_neg(), 2 * PAGE, 3), 10),
        (Region::new((1 << 40) - PAGE, (1 << 48) - PAGE, PAGE, 3), 11),
        (Region::new(1 << 40, 0, PAGE, 3), 10),
        (Region::new((1 << 48) - PAGE, 0, PAGE, 3), 10),
        (Region::new(0, 1 << 48, PAGE, 3), 10),
        (with_size(A, PAGE), 11),
    ]
    .map(|(region, number)| (of_region(CPU_INSERT, 5, region), number));
    at_desk("desk-form-and-reach", &asked, &[Zone::empty(5), Zone::empty(6)])
}

/// Regions stay in the order in which they came: A, D and E; then A is taken away; then put back.
fn order() -> Vec<DeskLog> {
    let configured = [A, B, C, G, D, E];
    let asked = [
        (of_region(CPU_INSERT, 5, A), 0),
        (of_region(CPU_INSERT, 5, D), 0),
        (of_region(CPU_INSERT, 5, E), 0),
        (of_region(CPU_REMOVE, 5, A), 0),
        (of_region(CPU_INSERT, 5, A), 0),
    ];
    vec![
        run("desk-three-in-order", &configured, &asked[..3], &[zone(5, &[A, D, E], &[]), Zone::empty(6)]),
        run("desk-first-of-three-removed", &configured, &asked[..4], &[zone(5, &[D, E], &[]), Zone::empty(6)]),
        run("desk-first-of-three-put-back", &configured, &asked, &[zone(5, &[D, E, A], &[]), Zone::empty(6)]),
    ]
}

/// A region and a zone that are not there, what is no request, and what is unsound.
fn refused() -> Vec<DeskLog> {
    let not_there = at_desk(
        "desk-not-there",
        &[
            (of_region(CPU_INSERT, 5, A), 0),
            (of_region(CPU_REMOVE, 5, B), 17),
            (of_region(CPU_INSERT, 7, B), 6),
            (of_zone(0, 5), 3),
            (of_zone(0, 256), 3),
        ],
        &[zone(5, &[A], &[]), Zone::empty(6)],
    );
    let unsound = |name, number, gic, first| {
        let base =
            rich().with_edition(0).with_regions(&[A, B, C, G]).with_gic(gic).with_zones(&[Zone::empty(first), Zone::empty(6)]);
        let log = Log::new(base.with_requests(&[of_zone(ADD_ZONE, 7)]), &[number]);
        DeskLog { name, log, number, zones: Vec::new() }
    };
    vec![
        not_there,
        unsound("desk-unsound-configuration", 1, 4, 5),
        unsound("desk-unsound-table", 2, 3, 256),
        unsound("desk-both-unsound", 1, 4, 256),
    ]
}

fn rights() -> Vec<DeskLog> {
    let [cpu, iommu] =
        [|rights| of_region(CPU_INSERT, 5, with_rights(A, rights)), |rights| of_region(IOMMU_INSERT, 5, with_rights(A, rights))];
    let names =
        ["desk-rights-1", "desk-rights-2", "desk-rights-3", "desk-rights-4", "desk-rights-5", "desk-rights-6", "desk-rights-7"];
    // Too many on the CPU side are writing and executing together; on the IOMMU side, executing.
    let numbers = [(0, 0), (0, 0), (0, 0), (0, 19), (0, 19), (19, 19), (19, 19)];
    let mut logs: Vec<DeskLog> = Vec::new();
    for ((name, rights), (on_cpu, on_iommu)) in names.into_iter().zip(1..).zip(numbers) {
        let a = with_rights(A, rights);
        let held = |number| if number == 0 { vec![a] } else { Vec::new() };
        let zones = [zone(5, &held(on_cpu), &held(on_iommu)), Zone::empty(6)];
        logs.push(run(name, &[a, B, C, G], &[(cpu(rights), on_cpu), (iommu(rights), on_iommu)], &zones));
    }
    let all = with_rights(G, ALL_RIGHTS);
    let only_a_right = with_rights(Region::ZERO, 1);
    logs.extend([
        at_desk("desk-no-rights-or-too-high", &[(cpu(0), 9), (cpu(8), 9), (cpu(9), 9)], &[Zone::empty(5), Zone::empty(6)]),
        run(
            "desk-rights-before-the-gic",
            &[A, B, C, all],
            &[
                (cpu(ALL_RIGHTS), 11),
                (of_region(CPU_INSERT, 5, all), 19),
                (of_region(IOMMU_INSERT, 5, all), 19),
                (cpu(3), 0),
                (cpu(3), 13),
            ],
            &[zone(5, &[A], &[]), Zone::empty(6)],
        ),
        at_desk(
            "desk-held-with-other-rights",
            &[
                (cpu(3), 0),
                (cpu(1), 11),
                (of_region(CPU_REMOVE, 5, with_rights(A, 1)), 17),
                (of_region(CPU_REMOVE, 5, A), 0),
                (of_region(ADD_ZONE, 7, only_a_right), 3),
                (of_region(REMOVE_ZONE, 6, only_a_right), 3),
            ],
            &[Zone::empty(5), Zone::empty(6)],
        ),
    ]);
    logs
}
