//! Terminals with owners on the memory of the second library. It is written as that is built: the first machine's tests, and the owners' beside
//! them. 12, 14 and what a table's zones have to do with each other are asked, although they no longer refuse anything; `ordinary::bank`
//! leaves them out.

use ordinary::limits::{MAX_ID, MAX_REGIONS};

use super::{answered, u32_at, unread, Answer, Config, Fault, Plan, Refused, Region, Request, Side, Table, Zone};

const GIC_OWNER: u32 = u32::MAX;
const OWNER_BYTES: usize = 4;

#[derive(Clone, Debug)]
#[repr(C)]
pub struct State {
    pub config: Config,
    pub owners: [u32; MAX_REGIONS],
    pub table: Table,
    pub edition: u32,
}

/// A configuration and its owners, where they lie.
#[derive(Clone, Copy)]
struct Owned<'a> {
    config: &'a Config,
    owners: &'a [u32; MAX_REGIONS],
}

impl Owned<'_> {
    fn check(&self) -> Result<(), Answer> {
        let plain = self.config.check();
        if let Err((1 | 2, _)) = plain {
            return plain;
        }
        let count = self.config.count as usize;
        let unused = self.owners[count..].iter().position(|&owner| owner != 0).map(|past| (count + past) as u64);
        match (plain, unused) {
            (Err((3, [record, _])), Some(owner)) => return Err((3, [record.min(owner), 0])),
            (Err((3, _)), None) => return plain,
            (_, Some(owner)) => return Err((3, [owner, 0])),
            _ => {}
        }
        match (0..count).find(|&place| !self.is_right(place)) {
            Some(place) => Err((7, [place as u64, 0])),
            None => plain,
        }
    }

    fn is_right(&self, place: usize) -> bool {
        if place as u64 == self.config.gic {
            self.owners[place] == GIC_OWNER
        } else {
            self.owners[place] <= MAX_ID
        }
    }

    /// Whether the zone owns the region; or it is the GIC's, on the IOMMU side.
    fn may_hold(&self, zone: u32, side: Side, region: &Region) -> bool {
        match self.config.regions().iter().position(|own| own == region) {
            Some(place) if place as u64 == self.config.gic => side == Side::Iommu,
            Some(place) => self.owners[place] == zone,
            None => false,
        }
    }

    fn holds_its_own(&self, zone: &Zone) -> bool {
        let is_own = |side: Side| zone.set(side).regions().iter().all(|region| self.may_hold(zone.id as u32, side, region));
        is_own(Side::Cpu) && is_own(Side::Iommu)
    }

    fn check_table(&self, table: &Table) -> Result<(), u32> {
        self.check().map_err(|_| 1u32)?;
        if table.is_sound_under(self.config) && table.zones().iter().all(|zone| self.holds_its_own(zone)) {
            Ok(())
        } else {
            Err(2)
        }
    }

    /// One request, where the configuration and the table are known to be sound.
    fn perform(&self, table: &mut Table, request: &Request) -> Result<(), u32> {
        let side = match request.kind {
            3 => Side::Cpu,
            5 => Side::Iommu,
            _ => return table.perform(self.config, request),
        };
        if self.is_stranger(table, side, request) {
            return Err(11);
        }
        table.perform(self.config, request)
    }

    /// Whether 11 comes of an insert because of the owner: no number before it does.
    fn is_stranger(&self, table: &Table, side: Side, request: &Request) -> bool {
        let Request { zone, region, .. } = request;
        table.position(*zone).is_some() && region.is_well_formed() && region.is_in_reach() && !self.may_hold(*zone, side, region)
    }
}

/// What a plan says, where its bytes lie.
pub struct OwnedPlan<'a> {
    plain: Plan<'a>,
    owners: &'a [u8],
}

impl<'a> OwnedPlan<'a> {
    pub fn read(bytes: &'a [u8]) -> Result<OwnedPlan<'a>, Fault> {
        let mut owners = &[][..];
        let plain = Plan::read_with(bytes, |reader, count| {
            reader.count(count, count)?;
            owners = reader.records(count, OWNER_BYTES)?;
            Ok(())
        })?;
        Ok(OwnedPlan { plain, owners })
    }

    pub fn requests_at(&self) -> usize {
        self.plain.requests_at
    }

    fn is_for(&self, owned: Owned) -> bool {
        let owners = self.owners.chunks_exact(OWNER_BYTES).map(|owner| u32_at(owner, 0));
        self.plain.is_for_config(owned.config) && owners.eq(owned.owners[..owned.config.count as usize].iter().copied())
    }
}

impl State {
    fn owned(&self) -> Owned<'_> {
        Owned { config: &self.config, owners: &self.owners }
    }

    pub fn check_config(&self) -> Result<(), Answer> {
        self.owned().check()
    }

    /// 1 or 2, if the configuration or the table is unsound.
    pub fn check_table(&self) -> Result<(), u32> {
        self.owned().check_table(&self.table)
    }

    /// One request from outside.
    pub fn request(&mut self, request: &Request) -> Result<(), u32> {
        self.check_table()?;
        Owned { config: &self.config, owners: &self.owners }.perform(&mut self.table, request)
    }

    /// Applies a plan: its number, its place and its inner number.
    pub fn apply(&mut self, plan: &[u8]) -> Answer {
        answered(self.try_apply(plan))
    }

    fn try_apply(&mut self, plan: &[u8]) -> Result<usize, Refused> {
        self.check_table().map_err(|number| (number, 0, 0))?;
        let plan = OwnedPlan::read(plan).map_err(unread)?;
        if !plan.is_for(self.owned()) {
            return Err((23, 0, 0));
        }
        let owned = Owned { config: &self.config, owners: &self.owners };
        plan.plain.carry_out(&mut self.table, &mut self.edition, |table, request| owned.perform(table, request))
    }

    /// The state that the library's words are.
    pub fn from_words(state: Box<super::State>, owners: &[u32; MAX_REGIONS]) -> Box<State> {
        let super::State { config, table, edition } = *state;
        Box::new(State { config, owners: *owners, table, edition })
    }
}

#[cfg(test)]
mod tests {
    use super::*;
    use cases::{Case, Question};

    fn ask(case: &Case, state: &mut State) -> Option<Answer> {
        Some(match case.question {
            Question::Config => state.check_config().err().unwrap_or((0, [0, 0])),
            Question::Table => (state.check_table().is_ok().into(), [0, 0]),
            Question::Request => {
                let ordinary::Record { kind, zone, region } = case.record();
                let request = Request { kind, zone, region: Region::from_numbers(region.numbers()) };
                (state.request(&request).err().unwrap_or(0), [0, 0])
            }
            Question::Read => match OwnedPlan::read(&case.plan) {
                Ok(plan) => (0, [plan.requests_at() as u64, 0]),
                Err((number, at)) => (number, [at as u64, 0]),
            },
            Question::Apply => state.apply(&case.plan),
            _ => return None,
        })
    }

    /// Numbers, places and the words afterwards are those of `rust/ordinary`, on every case by name and every stored plan that a job asks for.
    #[test]
    fn it_answers_as_the_other_ordinary_implementation() {
        let named = cases::bank::named().into_iter().map(|named| (named.name, named.case));
        let files = cases::bank::plan_files().into_iter().map(|file| (file.name.clone(), file.case()));
        let mut asked = 0;
        for (name, case) in named.chain(files) {
            let plain = super::super::State::from_words(&case.config, &case.table, case.edition());
            let mut state = State::from_words(plain, &case.owners.expect("owners"));
            let Some(answer) = ask(&case, &mut state) else { continue };
            let expected = case.ordinary();
            assert_eq!(answer, (expected.number, expected.places), "{name}");
            assert_eq!(state.edition, expected.edition, "{name}");
            assert!(super::super::tests::table_words(&state.table) == expected.table, "{name}: the table afterwards");
            asked += 1;
        }
        assert!(asked > 900);
    }

    #[test]
    fn the_memory_is_as_large_as_the_librarys() {
        assert_eq!(size_of::<State>(), size_of::<peatmitten::bank::State>());
    }
}
