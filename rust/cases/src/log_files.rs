//! Log files for the program `log_check`, each with its answer, which was worked out by hand.

use std::fmt;

use ordinary::layout::{CLAIM_BYTES, LONGEST_LOG};
use ordinary::limits::MAX_REQUESTS;
use ordinary::{check_log, encode_zones, LogRefusal, Zone};

use crate::desk::desk_logs;
use crate::files::{first, least, longest, longest_sound, rich, LAST_EDITION};
use crate::given::{of_region, of_zone, zone, A, ADD_ZONE, B, C, CPU_INSERT, G, IOMMU_INSERT};
use crate::logs::{desk, desk_zones, Log};

/// What is answered to a log: the number, the place, what the rules say and what was claimed.
#[derive(Clone, Copy, Debug, PartialEq, Eq)]
pub struct LogOutcome {
    pub number: u32,
    pub place: usize,
    pub right: u32,
    pub claimed: u32,
}

/// A log file, with what the program prints of it by hand.
#[derive(Clone, Debug)]
pub struct LogFile {
    pub name: String,
    pub bytes: Vec<u8>,
    pub answer: LogOutcome,
    /// The zones at the end, where they were worked out too.
    pub zones: Option<Vec<u8>>,
}

impl LogFile {
    /// What is wrong, if the ordinary implementation does not answer what was worked out by hand.
    pub fn fault(&self) -> Option<String> {
        let mut buffer = vec![0; LONGEST_LOG];
        let ordinary = LogOutcome::from(check_log(&self.bytes, &mut buffer));
        if ordinary != self.answer {
            return Some(format!("{}.log: {} by hand, {ordinary} by rust/ordinary", self.name, self.answer));
        }
        let is_other = self.zones.as_ref().is_some_and(|zones| !buffer.starts_with(zones));
        is_other.then(|| format!("{}.log: rust/ordinary leaves other zones than by hand", self.name))
    }
}

impl From<Result<usize, LogRefusal>> for LogOutcome {
    fn from(checked: Result<usize, LogRefusal>) -> LogOutcome {
        let (number, (place, right, claimed)) = match checked {
            Ok(length) => (0, (length, 0, 0)),
            Err(refusal) => (refusal.number(), refusal.found()),
        };
        LogOutcome { number, place, right, claimed }
    }
}

impl fmt::Display for LogOutcome {
    fn fmt(&self, f: &mut fmt::Formatter) -> fmt::Result {
        write!(f, "{} {} {} {}", self.number, self.place, self.right, self.claimed)
    }
}

#[derive(Default)]
pub struct LogFiles {
    pub all: Vec<LogFile>,
}

impl LogFiles {
    fn add(&mut self, name: impl Into<String>, bytes: Vec<u8>, number: u32, place: usize) {
        let answer = LogOutcome { number, place, right: 0, claimed: 0 };
        self.all.push(LogFile { name: name.into(), bytes, answer, zones: None });
    }

    /// One of which a claim is false.
    fn add_false(&mut self, name: impl Into<String>, log: &Log, place: usize, right: u32, claimed: u32) {
        let answer = LogOutcome { number: 30, place, right, claimed };
        self.all.push(LogFile { name: name.into(), bytes: log.bytes(), answer, zones: None });
    }
}

/// The logs of `examples`: a plan that is refused as a whole, request by request.
pub fn add_examples(files: &mut LogFiles) {
    let requests = [of_zone(ADD_ZONE, 6), of_region(CPU_INSERT, 6, B), of_region(IOMMU_INSERT, 6, A), of_zone(ADD_ZONE, 7)];
    let base = rich().with_edition(7).with_regions(&[A, B, C, G]).with_zones(&[zone(5, &[A], &[A, G])]);
    let log = Log::new(base.with_requests(&requests), &[0, 0, 14, 0]);
    files.add("true", log.bytes(), 0, 4 + 3 * 12 + 4 * 32);
    files.add_false("false", &log.with_claim(2, 0), 2, 14, 0);
}

/// The logs of `vectors/logs`.
pub fn add(files: &mut LogFiles) {
    true_logs(files);
    false_claims(files);
    unsound(files);
    unread(files);
    long(files);
    at_the_desk(files);
}

fn true_logs(files: &mut LogFiles) {
    let zones = desk_zones().len();
    files.add("least", Log::new(least(), &[]).bytes(), 0, 4);
    files.add("first-of-document-01", Log::new(first(), &[0]).bytes(), 0, 16);
    files.add("ten-requests-four-refused", desk().bytes(), 0, zones);
    files.add("last-edition", Log::new(desk().plan.with_edition(LAST_EDITION), &desk().claims).bytes(), 0, zones);
    files.add("no-requests", Log::new(desk().plan.with_requests(&[]), &[]).bytes(), 0, 4 + 12 + 3 * 32);
    let refused = [of_zone(ADD_ZONE, 5), of_zone(ADD_ZONE, 256)];
    files.add("every-request-refused", Log::new(desk().plan.with_requests(&refused), &[5, 4]).bytes(), 0, 4 + 12 + 3 * 32);
}

fn false_claims(files: &mut LogFiles) {
    for (index, right) in desk().claims.into_iter().enumerate() {
        let claimed = if right == 0 { 14 } else { 0 };
        files.add_false(format!("claim-{index}-false"), &desk().with_claim(index, claimed), index, right, claimed);
    }
    files.add_false("another-refusal-claimed", &desk().with_claim(3, 15), 3, 14, 15);
    files.add_false("highest-number-claimed", &desk().with_claim(9, u32::MAX), 9, 0, u32::MAX);
    files.add_false("two-false-claims", &desk().with_claim(5, 0).with_claim(3, 0), 3, 14, 0);
}

/// Whatever is claimed.
fn unsound(files: &mut LogFiles) {
    files.add("unsound-configuration", Log::new(desk().plan.with_gic(4), &[99; 10]).bytes(), 1, 0);
    files.add("unsound-zones", Log::new(desk().plan.with_zones(&[Zone::empty(256)]), &[99; 10]).bytes(), 2, 0);
}

fn unread(files: &mut LogFiles) {
    let (log, bytes, at) = (desk(), desk().bytes(), desk().claims_at());
    let with_byte = |at: usize, byte: u8| [&bytes[..at], &[byte], &bytes[at + 1..]].concat();
    files.add("empty-file", Vec::new(), 20, 0);
    files.add("a-plan", log.plan.bytes(), 21, 12);
    files.add("marks-counted-2", with_byte(0, 2), 21, 0);
    files.add("third-mark-4", with_byte(12, 4), 21, 12);
    files.add("cut-in-the-last-request", bytes[..at - 1].to_vec(), 20, log.plan.field("request-9").start);
    files.add("cut-before-the-claims", bytes[..at].to_vec(), 20, at);
    files.add("cut-in-the-claims-count", bytes[..at + 3].to_vec(), 20, at);
    files.add("cut-in-the-last-claim", bytes[..bytes.len() - 1].to_vec(), 20, bytes.len() - CLAIM_BYTES);
    files.add("claims-counted-one-less", with_byte(at, 9), 21, at);
    files.add("claims-counted-one-more", with_byte(at, 11), 21, at);
    files.add("byte-after-the-end", [&bytes[..], &[0]].concat(), 22, bytes.len());
    files.add("byte-after-the-end-and-false-claims", [Log::new(log.plan, &[99; 10]).bytes(), vec![0]].concat(), 22, bytes.len());
}

/// As many requests as there can be.
fn long(files: &mut LogFiles) {
    let sound = Log::new(longest_sound(), &[0; MAX_REQUESTS]);
    let zones = encode_zones(&sound.plan.base.table).len();
    let last = MAX_REQUESTS - 1;
    files.add("longest-sound", sound.bytes(), 0, zones);
    files.add_false("longest-sound-last-claim-false", &sound.with_claim(last, 17), last, 0, 17);
    let most = Log::new(longest(), &[0; MAX_REQUESTS]).bytes();
    files.add("longest", most.clone(), 2, 0);
    files.add("longest-and-one-byte", [&most[..], &[0]].concat(), 22, LONGEST_LOG);
    files.add("longest-without-its-last-byte", most[..most.len() - 1].to_vec(), 20, LONGEST_LOG - CLAIM_BYTES);
}

fn at_the_desk(files: &mut LogFiles) {
    for desk in desk_logs() {
        let zones = desk.section();
        let answer = LogOutcome { number: desk.number, place: zones.len(), right: 0, claimed: 0 };
        files.all.push(LogFile { name: desk.name.into(), bytes: desk.log.bytes(), answer, zones: Some(zones) });
    }
}
