use crate::answers::ListRefusal;
use crate::config::Config;
use crate::limits::MOST_REQUESTS;
use crate::raw;
use crate::request::Request;
use crate::table::Table;

impl Table {
    /// Puts the requests that lead from this table to the wanted zones and sets into the buffer, as a plan holds them, and says how many there
    /// are: so many records from the buffer's start are then the list, and the bytes behind them are what they were. A refusal changes no
    /// byte.
    pub fn list_to(&self, config: &Config, wanted: &Table, buffer: &mut [u8]) -> Result<usize, ListRefusal> {
        let (number, count) = raw::list_words(config, self, wanted, buffer);
        // So many records are bytes in memory.
        ListRefusal::from_library(number).map(|()| count as usize)
    }

    /// The same requests: first what goes, the regions before the zones, and then what comes. Each is accepted in turn, and then the zones and
    /// sets are the wanted ones, though perhaps in another order.
    ///
    /// ```
    /// use peatmitten::{Config, Region, Request, Side, State, Table};
    ///
    /// let memory = Region::new(0x4000_0000, 0x8000_0000, 0x20_0000, 3);
    /// let gic = Region::new(0x0800_0000, 0x0800_0000, 0x1_0000, 3);
    /// let config = Config::new(&[memory, gic], 1).expect("few enough regions");
    /// let zone_with_memory = |id| {
    ///     let mut table = Table::new();
    ///     for request in [Request::add_zone(id), Request::insert(id, Side::Cpu, memory)] {
    ///         table.request(&config, request).expect("the zone is new, and the memory free");
    ///     }
    ///     table
    /// };
    /// let (table, wanted) = (zone_with_memory(5), zone_with_memory(6));
    ///
    /// let requests = table.requests_to(&config, &wanted).expect("two sound tables, and few requests");
    /// assert_eq!(
    ///     requests,
    ///     [
    ///         Request::remove(5, Side::Cpu, memory),
    ///         Request::remove_zone(5),
    ///         Request::add_zone(6),
    ///         Request::insert(6, Side::Cpu, memory),
    ///     ]
    /// );
    ///
    /// let mut state = State { config, table, edition: 0 };
    /// let plan = state.plan(&requests).expect("the requests are accepted");
    /// assert_eq!(state.apply(&plan), Ok(4));
    /// assert_eq!(state.table, wanted);
    /// assert_eq!(state.table.requests_to(&state.config, &wanted), Ok(Vec::new()));
    /// ```
    pub fn requests_to(&self, config: &Config, wanted: &Table) -> Result<Vec<Request>, ListRefusal> {
        let mut bytes = vec![0; MOST_REQUESTS * Request::BYTES];
        let count = self.list_to(config, wanted, &mut bytes)?;
        Ok(bytes.chunks_exact(Request::BYTES).take(count).map(Request::from_bytes).collect())
    }
}
