//! Cases for field logs, chosen by hand, with the number, the place, what the rules say and what was claimed.

use ordinary::layout::{CLAIM_BYTES, LONGEST_LOG};
use ordinary::limits::{MAX_REQUESTS, MAX_ZONES};
use ordinary::{encode_log, encode_zones, true_claims, Region, Table, Zone, CONFIG_WORDS, TABLE_WORDS};

use crate::book::Book;
use crate::desk::desk_logs;
use crate::fields::{Field, Plan};
use crate::files::{first, least, longest, longest_sound, rich, rich_regions_with, LAST_EDITION};
use crate::given::{of_region, of_zone, zone, A, ADD_ZONE, B, C, CPU_INSERT, CPU_REMOVE, G, IOMMU_INSERT, REMOVE_ZONE};

/// Enough room for the zones of all logs but the longest.
const ROOM: usize = 600;

/// And for those of the desk, of which one fills the table with empty zones.
const DESK_ROOM: usize = 4 + 12 * MAX_ZONES;

/// A plan's contents, and the claims.
#[derive(Clone)]
pub struct Log {
    pub plan: Plan,
    pub claims: Vec<u32>,
}

impl Log {
    pub fn new(plan: Plan, claims: &[u32]) -> Log {
        Log { plan, claims: claims.to_vec() }
    }

    /// The log of an honest terminal.
    fn honest(plan: Plan) -> Log {
        let claims = true_claims(&plan.base.config, &plan.base.table, &plan.requests);
        Log { plan, claims }
    }

    pub fn bytes(&self) -> Vec<u8> {
        encode_log(&self.plan.base, &self.plan.requests, &self.claims)
    }

    pub fn with_claim(mut self, index: usize, claim: u32) -> Log {
        self.claims[index] = claim;
        self
    }

    /// Where the count of the claims stands.
    pub fn claims_at(&self) -> usize {
        self.plan.bytes().len()
    }
}

/// Ten requests at the desk, of which four are refused; and what each is answered.
pub fn desk() -> Log {
    let requests = [
        (of_zone(ADD_ZONE, 6), 0),
        (of_zone(ADD_ZONE, 6), 5),
        (of_region(CPU_INSERT, 6, B), 0),
        (of_region(CPU_INSERT, 6, A), 14),
        (of_region(IOMMU_INSERT, 6, G), 0),
        (of_region(CPU_INSERT, 6, G), 12),
        (of_zone(REMOVE_ZONE, 6), 8),
        (of_region(CPU_REMOVE, 5, A), 0),
        (of_region(CPU_INSERT, 5, C), 0),
        (of_zone(ADD_ZONE, 7), 0),
    ];
    let (requests, claims): (Vec<_>, Vec<u32>) = requests.into_iter().unzip();
    let base = rich().with_edition(7).with_regions(&[A, B, C, G]).with_zones(&[zone(5, &[A], &[A, G])]);
    Log::new(base.with_requests(&requests), &claims)
}

/// The zones after them, as a section.
pub fn desk_zones() -> Vec<u8> {
    let zones = vec![zone(5, &[C], &[A, G]), zone(6, &[B], &[G]), Zone::empty(7)];
    encode_zones(&Table { zones })
}

pub fn add(book: &mut Book) {
    book.change_to([0; CONFIG_WORDS], [0; TABLE_WORDS]);
    whole(book);
    each_claim(book);
    two_false(book);
    numbers_claimed(book);
    rooms(book);
    unsound(book);
    no_plans(book);
    cuts(book);
    counts(book);
    after_the_end(book);
    long(book);
    room_to_work_in(book);
    at_the_desk(book);
}

/// A log with the answer that must come.
fn ask(book: &mut Book, name: &str, log: &Log, (number, place, right, claimed): (u32, usize, u32, u32)) {
    book.ask_log(format!("log: {name}"), log.bytes(), ROOM).known_of_log(number, place as u64, right, claimed);
}

/// Bytes that do not read whole as a log.
fn unread(book: &mut Book, name: &str, bytes: Vec<u8>, number: u32, offset: usize) {
    book.ask_log(format!("log: {name}"), bytes, ROOM).known_of_log(number, offset as u64, 0, 0);
}

// ---- whole logs

fn whole(book: &mut Book) {
    ask(book, "the least", &Log::new(least(), &[]), (0, 4, 0, 0));
    ask(book, "the document's whole plan, accepted", &Log::new(first(), &[0]), (0, 16, 0, 0));
    ask(book, "the same, claimed to be refused", &Log::new(first(), &[5]), (30, 0, 0, 5));
    ask(book, "ten requests, four of them refused", &desk(), (0, desk_zones().len(), 0, 0));
    let zones = encode_zones(&rich().base.table).len();
    ask(book, "no requests: the zones as they were", &Log::new(rich().with_requests(&[]), &[]), (0, zones, 0, 0));
    let all_refused =
        [of_zone(ADD_ZONE, 256), of_zone(7, 5), of_zone(ADD_ZONE, 9), of_zone(REMOVE_ZONE, 9), of_zone(REMOVE_ZONE, 1)];
    let log = Log::new(rich().with_requests(&all_refused), &[4, 3, 5, 8, 6]);
    ask(book, "every request refused: the zones as they were", &log, (0, zones, 0, 0));
    let last = desk().plan.with_edition(LAST_EDITION);
    ask(book, "the last edition is not judged", &Log::new(last, &desk().claims), (0, desk_zones().len(), 0, 0));
    ask(book, "one request of each kind", &Log::honest(rich()), (0, 4 + 3 * 12 + 6 * 32, 0, 0));
}

// ---- false claims

/// Each claim in turn: accepted where it was refused, refused where it was accepted, and another refusal.
fn each_claim(book: &mut Book) {
    for (index, right) in desk().claims.into_iter().enumerate() {
        let others = if right == 0 { [5, 14, 27] } else { [0, right + 1, right - 1] };
        for claimed in others {
            let name = format!("claim {index} is {claimed} and not {right}");
            ask(book, &name, &desk().with_claim(index, claimed), (30, index, right, claimed));
        }
    }
}

fn two_false(book: &mut Book) {
    let log = desk().with_claim(3, 0).with_claim(5, 0);
    ask(book, "two false claims: the first is told", &log, (30, 3, 14, 0));
    ask(book, "all claims accepted: the first that is not", &Log::new(desk().plan, &[0; 10]), (30, 1, 5, 0));
    ask(book, "all claims refused: the first that is not", &Log::new(desk().plan, &[5; 10]), (30, 0, 0, 5));
    // Zone 6 is there from then on, whatever is claimed of adding it.
    let twice = desk().plan.with_requests(&[of_zone(ADD_ZONE, 6), of_zone(ADD_ZONE, 6)]);
    ask(book, "a claim that would hold had the one before not been accepted", &Log::new(twice, &[0, 0]), (30, 1, 5, 0));
}

/// Numbers that no request is answered, and right ones with another byte beside them.
fn numbers_claimed(book: &mut Book) {
    let (refused, accepted) = (3, 4);
    for claimed in [1, 2, 18, 20, 27, 28, 30, 255, 14 + (1 << 8), 14 + (1 << 16), 14 << 24, 14 + (1 << 31), u32::MAX] {
        ask(book, &format!("{claimed} claimed of a refused request"), &desk().with_claim(refused, claimed), (30, 3, 14, claimed));
    }
    for claimed in [1, 2, 3, 18, 30, 1 << 8, 1 << 16, 1 << 24, 1 << 31, u32::MAX] {
        let log = desk().with_claim(accepted, claimed);
        ask(book, &format!("{claimed} claimed of an accepted request"), &log, (30, 4, 0, claimed));
    }
}

// ---- the buffer

fn rooms(book: &mut Book) {
    let (log, zones) = (desk(), desk_zones().len());
    for (name, room, number, place) in [
        ("just room enough", zones, 0, zones),
        ("a byte more", zones + 1, 0, zones),
        ("a byte too few", zones - 1, 28, 0),
        ("room for the count alone", 4, 28, 0),
        ("no room", 0, 28, 0),
    ] {
        book.ask_log(format!("log: {name}"), log.bytes(), room).known_of_log(number, place as u64, 0, 0);
    }
    book.ask_log("log: a false claim is told where there is no room", log.with_claim(9, 7).bytes(), 0).known_of_log(30, 9, 0, 7);
    let unsound = desk().plan.with_zones(&[Zone::empty(256)]);
    book.ask_log("log: no room, and unsound zones", Log::new(unsound, &desk().claims).bytes(), 0).known_of_log(2, 0, 0, 0);
    book.ask_log("log: no zones and room for their count", Log::new(least(), &[]).bytes(), 4).known_of_log(0, 4, 0, 0);
    book.ask_log("log: no zones and a byte too few", Log::new(least(), &[]).bytes(), 3).known_of_log(28, 0, 0, 0);
}

// ---- 1 and 2, of the log's own contents

fn unsound(book: &mut Book) {
    let claims = vec![77; rich().requests.len()];
    let log = |plan: Plan| Log { plan, claims: claims.clone() };
    for (name, number, plan) in [
        ("GIC at the count", 1, rich().with_gic(6)),
        ("GIC position 2^32 - 1", 1, rich().with_gic(u32::MAX)),
        ("two equal regions", 1, rich().with_regions(&rich_regions_with(2, A))),
        ("a region that is not well formed", 1, rich().with_regions(&rich_regions_with(2, Region::ZERO))),
        ("id 256", 2, rich().with_zones(&[Zone::empty(256)])),
        ("two zones with one id", 2, rich().with_zones(&[Zone::empty(5), Zone::empty(5)])),
        ("a region of two zones", 2, rich().with_zones(&[zone(5, &[A], &[]), zone(6, &[], &[A])])),
        ("a region that is not configured", 2, rich().with_regions(&[B, C, G]).with_gic(2)),
        ("both unsound", 1, rich().with_gic(6).with_zones(&[Zone::empty(256)])),
    ] {
        ask(book, &format!("{name}, before false claims"), &log(plan.clone()), (number, 0, 0, 0));
        let bytes = log(plan).bytes();
        let end = bytes.len();
        unread(book, &format!("{name}, after a byte too many"), [bytes, vec![0]].concat(), 22, end);
    }
}

// ---- 20, 21 and 22

/// A plan, and logs with other marks.
fn no_plans(book: &mut Book) {
    let bytes = desk().bytes();
    let with_byte = |at: usize, byte: u8| [&bytes[..at], &[byte], &bytes[at + 1..]].concat();
    unread(book, "a plan", desk().plan.bytes(), 21, 12);
    for mark in [0, 1, 2, 4, 255] {
        unread(book, &format!("third mark {mark}"), with_byte(12, mark), 21, 12);
    }
    unread(book, "third mark 3 + 2^24", with_byte(15, 1), 21, 12);
    unread(book, "third mark 2 and no regions", [&with_byte(12, 2)[..16], &[0; 4]].concat(), 21, 12);
    for count in [0, 2, 4] {
        unread(book, &format!("marks counted {count}"), with_byte(0, count), 21, 0);
    }
    unread(book, "a zone too many", with_byte(desk().plan.field("zones-count").start, MAX_ZONES as u8 + 1), 21, 148);
    unread(book, "no bytes", Vec::new(), 20, 0);
}

/// Before each field of the rich plan's log and before the field's last byte; and of the claims before each byte.
fn cuts(book: &mut Book) {
    let log = Log::honest(rich());
    let bytes = log.bytes();
    for Field { name, start, end, .. } in log.plan.fields() {
        unread(book, &format!("cut before {name}"), bytes[..start].to_vec(), 20, start);
        unread(book, &format!("cut in {name}"), bytes[..end - 1].to_vec(), 20, start);
    }
    for end in log.claims_at()..bytes.len() {
        let field = end - end % CLAIM_BYTES;
        unread(book, &format!("cut at {end}, in the claims"), bytes[..end].to_vec(), 20, field);
    }
}

/// The claims' count, which must be the requests'.
fn counts(book: &mut Book) {
    let (log, at) = (desk(), desk().claims_at());
    let bytes = log.bytes();
    for count in [0, 9, 11, 10 + (1 << 8), 10 << 24, 10 + (1 << 31), MAX_REQUESTS as u32, u32::MAX] {
        let counted = [&bytes[..at], &count.to_le_bytes(), &bytes[at + 4..]].concat();
        unread(book, &format!("{count} claims counted"), counted.clone(), 21, at);
        unread(book, &format!("{count} claims counted, then cut"), counted[..at + 4].to_vec(), 21, at);
    }
    for (name, claims) in [("a claim less", &log.claims[..9]), ("a claim more", &[&log.claims[..], &[0]].concat())] {
        unread(book, &format!("{name} than requests, all there"), Log::new(log.plan.clone(), claims).bytes(), 21, at);
    }
    let none_asked = Log::new(log.plan.with_requests(&[]), &[0]);
    unread(book, "a claim and no request", none_asked.bytes(), 21, none_asked.claims_at());
}

fn after_the_end(book: &mut Book) {
    let bytes = desk().bytes();
    for (name, more) in [("a byte", &[0][..]), ("a claim", &[0; 4]), ("a second log", &bytes)] {
        unread(book, &format!("{name} after the end"), [&bytes[..], more].concat(), 22, bytes.len());
    }
    let false_claim = desk().with_claim(0, 9).bytes();
    unread(book, "a byte after the end, and a false claim", [&false_claim[..], &[0]].concat(), 22, bytes.len());
}

// ---- as many requests as there can be

fn long(book: &mut Book) {
    let sound = Log::new(longest_sound(), &[0; MAX_REQUESTS]);
    let zones = encode_zones(&sound.plan.base.table).len();
    let mut ask = |name: &str, bytes: Vec<u8>, known: (u32, usize, u32, u32)| {
        let (number, place, right, claimed) = known;
        book.ask_log(format!("log: {name}"), bytes, zones).known_of_log(number, place as u64, right, claimed);
    };
    ask("the longest sound one", sound.bytes(), (0, zones, 0, 0));
    let last = MAX_REQUESTS - 1;
    ask("its last claim false", sound.with_claim(last, 17).bytes(), (30, last, 0, 17));
    let most = Log::new(longest(), &[0; MAX_REQUESTS]).bytes();
    ask("the longest", most.clone(), (2, 0, 0, 0));
    ask("the longest without its last byte", most[..most.len() - 1].to_vec(), (20, LONGEST_LOG - CLAIM_BYTES, 0, 0));
    ask("the longest and a byte", [&most[..], &[0]].concat(), (22, LONGEST_LOG, 0, 0));
}

// ---- the words that are lent to work in

/// Whatever they hold: after a log that reads whole they are its own, else they stay.
fn room_to_work_in(book: &mut Book) {
    for (name, words) in [("all bits set", u64::MAX), ("ones", 1)] {
        book.change_to([words; CONFIG_WORDS], [words; TABLE_WORDS]);
        ask(book, &format!("room to work in with {name}, true"), &desk(), (0, desk_zones().len(), 0, 0));
        ask(book, &format!("room to work in with {name}, false"), &desk().with_claim(3, 0), (30, 3, 14, 0));
        let unsound = Log::new(desk().plan.with_gic(4), &desk().claims);
        ask(book, &format!("room to work in with {name}, unsound"), &unsound, (1, 0, 0, 0));
        let bytes = desk().bytes();
        unread(
            book,
            &format!("room to work in with {name}, cut in the last claim"),
            bytes[..bytes.len() - 1].to_vec(),
            20,
            bytes.len() - 4,
        );
        unread(book, &format!("room to work in with {name}, a plan"), desk().plan.bytes(), 21, 12);
        unread(book, &format!("room to work in with {name}, a byte after the end"), [&bytes[..], &[0]].concat(), 22, bytes.len());
        book.ask_log(format!("log: room to work in with {name}, no room in the buffer"), bytes, 0).known_of_log(28, 0, 0, 0);
    }
}

// ---- the desk examples, as they are stored

fn at_the_desk(book: &mut Book) {
    for desk in desk_logs() {
        book.ask_log(format!("log: {}", desk.name), desk.log.bytes(), DESK_ROOM).known_of_log(
            desk.number,
            desk.section().len() as u64,
            0,
            0,
        );
    }
}
