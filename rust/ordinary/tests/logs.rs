//! Field logs by hand: how they read, what their claims are held against, and the order of the numbers.

mod desk_regions;

use ordinary::layout::{LONGEST_LOG, LONGEST_PLAN};
use ordinary::limits::MAX_REQUESTS;
use ordinary::{
    check_log, encode, encode_log, encode_zones, true_claims, Config, Log, LogRefusal, Plan, ReadFault, Record, Refusal, Region,
    State, Table, Zone,
};

use desk_regions::{A, B, G};

const fn asked(kind: u32, zone: u32, region: Region) -> Record {
    Record { kind, zone, region }
}

/// Zone 5 is added; once more; it gets A; zone 6, which is not there, is to get B; it is added, and gets B; and A, which is zone 5's.
const REQUESTS: [Record; 7] = [
    asked(1, 5, Region::ZERO),
    asked(1, 5, Region::ZERO),
    asked(3, 5, A),
    asked(3, 6, B),
    asked(1, 6, Region::ZERO),
    asked(3, 6, B),
    asked(5, 6, A),
];
const CLAIMS: [u32; 7] = [0, 5, 0, 6, 0, 0, 14];

fn base() -> State {
    State { config: Config { regions: vec![A, B, G], gic: 2 }, table: Table::default(), edition: 9 }
}

fn log() -> Vec<u8> {
    encode_log(&base(), &REQUESTS, &CLAIMS)
}

fn end_zones() -> Vec<u8> {
    let zone = |id: u32, region: Region| Zone { id, cpu: vec![region], iommu: vec![] };
    encode_zones(&Table { zones: vec![zone(5, A), zone(6, B)] })
}

/// Where the claims' count stands.
fn claims_at() -> usize {
    encode(&base(), &REQUESTS).len()
}

fn refused(bytes: &[u8]) -> LogRefusal {
    let mut buffer = [7; 200];
    let refusal = check_log(bytes, &mut buffer).expect_err("a refusal");
    assert_eq!(buffer, [7; 200]);
    refusal
}

#[test]
fn a_true_log_leads_to_its_end_zones_though_requests_are_refused() {
    let mut buffer = [7; 200];
    let zones = end_zones();
    assert_eq!(check_log(&log(), &mut buffer), Ok(zones.len()));
    assert_eq!(buffer[..zones.len()], zones);
    assert!(buffer[zones.len()..].iter().all(|&byte| byte == 7));
    assert_eq!(true_claims(&base().config, &base().table, &REQUESTS), CLAIMS);
}

#[test]
fn each_claim_falsified_in_turn() {
    for index in 0..CLAIMS.len() {
        let mut before = base().table;
        for request in &REQUESTS[..index] {
            let _ = before.perform(&base().config, request);
        }
        for claimed in [0, 1, 2, 3, 5, 6, 14, 18, 27, 30, CLAIMS[index] + 256, u32::MAX] {
            if claimed == CLAIMS[index] {
                continue;
            }
            let mut claims = CLAIMS;
            claims[index] = claimed;
            let log = encode_log(&base(), &REQUESTS, &claims);
            let refusal = refused(&log);
            assert_eq!(refusal, LogRefusal::FalseClaim { index, claimed, right: CLAIMS[index] });
            assert_eq!((refusal.number(), refusal.found()), (30, (index, CLAIMS[index], claimed)));
            assert_eq!(Log::read(&log).expect("a log").audit().table, before);
        }
    }
}

#[test]
fn the_first_of_two_false_claims_is_told() {
    let mut claims = CLAIMS;
    (claims[2], claims[4]) = (13, 5);
    let log = encode_log(&base(), &REQUESTS, &claims);
    assert_eq!(refused(&log), LogRefusal::FalseClaim { index: 2, claimed: 13, right: 0 });
}

#[test]
fn a_log_is_no_plan_and_a_plan_is_no_log() {
    assert_eq!(Plan::read(&log()).err(), Some(ReadFault::Count(12)));
    assert_eq!(refused(&encode(&base(), &REQUESTS)), LogRefusal::Read(ReadFault::Count(12)));
    let mut two_marks = log();
    two_marks[0] = 2;
    assert_eq!(refused(&two_marks), LogRefusal::Read(ReadFault::Count(0)));
}

#[test]
fn claims_that_are_cut_miscounted_or_followed_by_more() {
    let (log, at) = (log(), claims_at());
    for end in at..log.len() {
        let place = at + (end - at) / 4 * 4;
        assert_eq!(refused(&log[..end]), LogRefusal::Read(ReadFault::Cut(place)), "cut at {end}");
    }
    for count in [0, 6, 8, 7 + 256, u32::MAX] {
        let counted = [&log[..at], &count.to_le_bytes(), &log[at + 4..]].concat();
        assert_eq!(refused(&counted), LogRefusal::Read(ReadFault::Count(at)), "{count} counted");
        assert_eq!(refused(&counted[..at + 4]), LogRefusal::Read(ReadFault::Count(at)), "{count} counted, then cut");
    }
    assert_eq!(refused(&[&log[..], &[0]].concat()), LogRefusal::Read(ReadFault::Trailing(log.len())));
}

#[test]
fn the_order_of_the_numbers() {
    let false_claims = [77; 7];
    let unsound_table = State { table: Table { zones: vec![Zone::empty(256)] }, ..base() };
    let unsound_config = State { config: Config { regions: vec![A, A], gic: 0 }, ..unsound_table.clone() };
    let with_more = |base: &State| [encode_log(base, &REQUESTS, &false_claims), vec![0]].concat();
    let length = |base: &State| encode_log(base, &REQUESTS, &false_claims).len();
    assert_eq!(refused(&with_more(&unsound_config)), LogRefusal::Read(ReadFault::Trailing(length(&unsound_config))));
    for (base, refusal) in [(unsound_config, Refusal::UnsoundConfig), (unsound_table, Refusal::UnsoundTable)] {
        assert_eq!(refused(&encode_log(&base, &REQUESTS, &false_claims)), LogRefusal::Own(refusal));
    }
    let false_log = encode_log(&base(), &REQUESTS, &false_claims);
    assert_eq!(check_log(&false_log, &mut []), Err(LogRefusal::FalseClaim { index: 0, claimed: 77, right: 0 }));
    assert_eq!(check_log(&log(), &mut [7; 3]), Err(LogRefusal::BufferShort));
    let mut just_short = vec![7; end_zones().len() - 1];
    assert_eq!(check_log(&log(), &mut just_short), Err(LogRefusal::BufferShort));
    assert!(just_short.iter().all(|&byte| byte == 7));
}

#[test]
fn the_last_edition_is_not_judged() {
    let last = State { edition: u32::MAX, ..base() };
    assert_eq!(check_log(&encode_log(&last, &REQUESTS, &CLAIMS), &mut [0; 200]), Ok(end_zones().len()));
}

#[test]
fn the_least_and_the_longest_log() {
    let least = State { config: Config { regions: vec![G], gic: 0 }, table: Table::default(), edition: 0 };
    let log = encode_log(&least, &[], &[]);
    assert_eq!(log.len(), 64);
    assert_eq!(check_log(&log, &mut [7; 4]), Ok(4));
    assert_eq!((LONGEST_LOG, LONGEST_LOG - LONGEST_PLAN), (63_904, 4 + 4 * MAX_REQUESTS));
}
