use crate::config::Config;
use crate::plan::{Plan, ReadFault};
use crate::request::Refusal;
use crate::table::Table;

/// What a terminal keeps.
#[derive(Clone, Debug, PartialEq, Eq)]
pub struct State<C = Config> {
    /// Its configuration, on the second machine one with owners.
    pub config: C,
    /// Its zones.
    pub table: Table,
    /// How many plans it has accepted.
    pub edition: u32,
}

/// Why a plan is refused.
#[derive(Clone, Copy, Debug, PartialEq, Eq)]
pub enum PlanRefusal {
    /// 1 or 2: the terminal's own state is unsound.
    Own(Refusal),
    /// 20 to 22: the bytes are no plan.
    Read(ReadFault),
    /// 23: it is for another configuration.
    OtherConfig,
    /// 24: it is for another edition.
    OtherEdition,
    /// 25: there is no next edition.
    LastEdition,
    /// 26: it is for other zones.
    OtherZones,
    /// 27: one of its requests is refused.
    Request {
        /// Which, from 0.
        index: usize,
        /// Why.
        refusal: Refusal,
    },
}

impl PlanRefusal {
    /// The document's number.
    pub fn number(&self) -> u32 {
        match self {
            PlanRefusal::Own(refusal) => refusal.number(),
            PlanRefusal::Read(fault) => fault.number(),
            PlanRefusal::OtherConfig => 23,
            PlanRefusal::OtherEdition => 24,
            PlanRefusal::LastEdition => 25,
            PlanRefusal::OtherZones => 26,
            PlanRefusal::Request { .. } => 27,
        }
    }

    /// The place and the inner number, 0 where unused.
    pub fn found(&self) -> (usize, u32) {
        match self {
            PlanRefusal::Read(fault) => (fault.offset(), 0),
            PlanRefusal::Request { index, refusal } => (*index, refusal.number()),
            _ => (0, 0),
        }
    }
}

impl From<ReadFault> for PlanRefusal {
    fn from(fault: ReadFault) -> PlanRefusal {
        PlanRefusal::Read(fault)
    }
}

/// What the program `apply` answers: the plan is applied to the configuration, edition and zones that it holds.
pub fn apply_alone(bytes: &[u8]) -> Result<usize, PlanRefusal> {
    let Plan { config, edition, table, .. } = Plan::read(bytes)?;
    State { config, table, edition }.apply(bytes)
}

impl State {
    /// Applies a plan and says how many requests it had. A refused plan leaves the state as it was.
    pub fn apply(&mut self, bytes: &[u8]) -> Result<usize, PlanRefusal> {
        self.table.check(&self.config).map_err(PlanRefusal::Own)?;
        let plan = Plan::read(bytes)?;
        let next = self.next_edition(&plan.config, plan.edition, &plan.table)?;
        let mut table = plan.table;
        for (index, request) in plan.requests.iter().enumerate() {
            table.perform(&self.config, &request).map_err(|refusal| PlanRefusal::Request { index, refusal })?;
        }
        self.table = table;
        self.edition = next;
        Ok(plan.requests.len())
    }
}

impl<C: PartialEq> State<C> {
    /// The edition that a plan for this configuration, edition and table leads to, if they are the state's own: 23 to 26.
    pub(crate) fn next_edition(&self, config: &C, edition: u32, table: &Table) -> Result<u32, PlanRefusal> {
        if *config != self.config {
            return Err(PlanRefusal::OtherConfig);
        }
        if edition != self.edition {
            return Err(PlanRefusal::OtherEdition);
        }
        let next = self.edition.checked_add(1).ok_or(PlanRefusal::LastEdition)?;
        if *table != self.table {
            return Err(PlanRefusal::OtherZones);
        }
        Ok(next)
    }
}
