//! Cases written down one after another. Requests and plans are asked at the state that the ones before them left.

use ordinary::bank::Owners;
use ordinary::layout::TABLE_COUNT;
use ordinary::{ConfigWords, Record, TableWords, CONFIG_WORDS, TABLE_WORDS};

use crate::case::{Answer, Case, Left, Question};

/// A case with its name and, where they are known without any implementation, the number that must be answered, the two places with it, and of
/// a log what was claimed.
#[derive(Clone, Debug)]
pub struct Named {
    pub name: String,
    pub case: Case,
    pub known: Option<u32>,
    pub known_places: Option<[u64; 2]>,
    pub known_claim: Option<u64>,
}

impl Named {
    /// The number was worked out by hand. A table check answers 1 for yes, 0 for no.
    pub fn known(&mut self, number: u32) {
        self.known = Some(number);
    }

    /// The same with its places: of a translation the physical address and what remains.
    pub fn known_with(&mut self, number: u32, places: [u64; 2]) {
        self.known(number);
        self.known_places = Some(places);
    }

    /// The same of a log: its number, the place, what the rules say and what was claimed.
    pub fn known_of_log(&mut self, number: u32, place: u64, right: u32, claimed: u32) {
        self.known_with(number, [place, right.into()]);
        self.known_claim = Some(claimed.into());
    }

    /// The case and its answer on a line. Of a table afterwards it has the count of zones and a fingerprint of all words.
    pub fn line(&self) -> String {
        let after = self.case.ordinary();
        let Answer { number, places: [place, other], table, edition, .. } = after;
        let left = format!("{} {}", table[TABLE_COUNT], fingerprint(&table));
        let answer = match self.case.question {
            Question::Config | Question::Translate | Question::Base => format!("{number} {place} {other}"),
            Question::Table => (if number == 1 { "yes" } else { "no" }).into(),
            Question::Request => format!("{number} {left}"),
            Question::Edition | Question::Read => format!("{number} {place}"),
            Question::Apply | Question::Pieces => format!("{number} {place} {other} {edition} {left}"),
            Question::Write => format!("{number} {place} {other} {}", mixed(&after.left[0].buffer)),
            Question::Zones => format!("{number} {place} {}", mixed(&after.left[0].buffer)),
            Question::Lacking => format!("{place} {:?}", after.left[0].words),
            Question::List => format!("{number} {place} {}", mixed(&after.left[0].buffer)),
            Question::Listing => format!("{number} {place} {}", mixed(&after.left[0].buffer)),
            Question::Log => {
                let Left { words: [claimed, _], buffer, .. } = &after.left[0];
                format!("{number} {place} {other} {claimed} {} {} {left}", mixed(buffer), fingerprint(&after.config))
            }
        };
        format!("{}: {answer}", self.name)
    }

    /// What is wrong, if the ordinary implementation does not answer what was worked out by hand.
    pub fn fault(&self) -> Option<String> {
        let Answer { number, places, left, .. } = self.case.ordinary();
        let claim = left.first().map_or(0, |left| left.words[0]);
        let answered = (number, places, claim);
        let known = (self.known.unwrap_or(number), self.known_places.unwrap_or(places), self.known_claim.unwrap_or(claim));
        (known != answered).then(|| format!("{}: {known:?} by hand, {answered:?} by rust/ordinary", self.name))
    }
}

/// All bytes mixed into one number.
fn mixed(bytes: &[u8]) -> u64 {
    fingerprint(&bytes.iter().map(|&byte| byte.into()).collect::<Vec<u64>>())
}

/// All words mixed into one number: a step of the generator xorshift64 before each word.
fn fingerprint(words: &[u64]) -> u64 {
    words.iter().fold(0, |mixed: u64, word| {
        let mixed = mixed ^ (mixed << 13);
        let mixed = mixed ^ (mixed >> 7);
        mixed ^ (mixed << 17) ^ word
    })
}

/// The cases so far, and the state at which the next is asked.
pub struct Book {
    pub config: ConfigWords,
    /// Where the second machine is asked: the owners.
    pub owners: Option<Owners>,
    pub table: TableWords,
    pub edition: u32,
    pub named: Vec<Named>,
}

impl Book {
    pub fn new() -> Book {
        Book { config: [0; CONFIG_WORDS], owners: None, table: [0; TABLE_WORDS], edition: 0, named: Vec::new() }
    }

    /// Another configuration and table. The edition stays.
    pub fn change_to(&mut self, config: ConfigWords, table: TableWords) {
        self.config = config;
        self.table = table;
    }

    pub fn ask_config(&mut self, name: impl Into<String>, config: ConfigWords) -> &mut Named {
        self.ask(name.into(), Case::config(config))
    }

    pub fn ask_table(&mut self, name: impl Into<String>, config: ConfigWords, table: TableWords) -> &mut Named {
        self.ask(name.into(), Case::table(config, table))
    }

    pub fn ask_request(&mut self, name: impl Into<String>, request: Record) -> &mut Named {
        let case = Case { owners: self.owners, ..Case::request(self.config, self.table, request) };
        self.table = case.ordinary().table;
        self.ask(name.into(), case)
    }

    /// Side 0 is the CPU's, any other the IOMMU's.
    pub fn ask_translation(&mut self, name: impl Into<String>, zone: u32, side: u32, address: u64) -> &mut Named {
        self.ask(name.into(), Case::translate(self.config, self.table, zone, side, address))
    }

    pub fn ask_plan(&mut self, name: impl Into<String>, plan: Vec<u8>) -> &mut Named {
        self.deliver(name.into(), Case::apply(self.config, self.table, self.edition, plan))
    }

    /// The plan in pieces of these lengths and the rest of it, into a buffer of so many bytes.
    pub fn ask_pieces(
        &mut self,
        name: impl Into<String>,
        receiver: [u64; 2],
        lengths: &[usize],
        room: usize,
        plan: Vec<u8>,
    ) -> &mut Named {
        let whole = Case::apply(self.config, self.table, self.edition, plan);
        self.deliver(name.into(), Case::pieces(whole, receiver, lengths.to_vec(), vec![0xa5; room]))
    }

    /// The listing into a buffer of so many bytes.
    pub fn ask_listing(&mut self, name: impl Into<String>, room: usize) -> &mut Named {
        self.ask(name.into(), Case::listing(self.config, self.table, vec![0xa5; room]))
    }

    /// The check of a log, with the state's words as room to work in, into a buffer of so many bytes.
    pub fn ask_log(&mut self, name: impl Into<String>, log: Vec<u8>, room: usize) -> &mut Named {
        self.ask(name.into(), Case::log(self.config, self.table, log, vec![0xa5; room]))
    }

    /// The writer with these requests' records, into a buffer of so many bytes.
    pub fn ask_writer(&mut self, name: impl Into<String>, requests: Vec<u8>, room: usize) -> &mut Named {
        self.ask(name.into(), Case::write(self.config, self.table, self.edition, requests, vec![0xa5; room]))
    }

    /// The state's zones, into a buffer of so many bytes.
    pub fn ask_zones(&mut self, name: impl Into<String>, room: usize) -> &mut Named {
        self.ask(name.into(), Case::zones(self.config, self.table, vec![0xa5; room]))
    }

    /// Where the plan's own zones section stands.
    pub fn ask_base(&mut self, name: impl Into<String>, plan: Vec<u8>) -> &mut Named {
        self.ask(name.into(), Case::base(plan))
    }

    /// The first place where the second stretch lacks the same byte. The number by hand is 0 where the first ends there, 1 where both have a
    /// byte, 2 where only the second has ended.
    pub fn ask_lacking(&mut self, name: impl Into<String>, first: &[u8], second: &[u8]) -> &mut Named {
        self.ask(name.into(), Case::lacking(first.to_vec(), second.to_vec()))
    }

    /// The list to this table, into a buffer of so many bytes.
    pub fn ask_list(&mut self, name: impl Into<String>, wanted: TableWords, room: usize) -> &mut Named {
        self.ask(name.into(), Case::list(self.config, self.table, &wanted, vec![0xa5; room]))
    }

    fn deliver(&mut self, name: String, case: Case) -> &mut Named {
        let case = Case { owners: self.owners, ..case };
        let after = case.ordinary();
        self.table = after.table;
        self.edition = after.edition;
        self.ask(name, case)
    }

    fn ask(&mut self, name: String, case: Case) -> &mut Named {
        let case = Case { owners: self.owners, ..case };
        self.named.push(Named { name, case, known: None, known_places: None, known_claim: None });
        self.named.last_mut().expect("the case just written down")
    }
}
