use crate::answers::ListingRefusal;
use crate::config::Config;
use crate::limits::LONGEST_LISTING;
use crate::raw;
use crate::table::Table;

impl Table {
    /// Writes the map listing, a line for each region, and says how many bytes it has: so many from the buffer's start are then the
    /// listing, and those behind them are what they were. A refusal changes no byte.
    ///
    /// ```
    /// use peatmitten::{Config, ListingRefusal, Region, Request, Side, Table};
    ///
    /// let memory = Region::new(0x4000_0000, 0x8000_0000, 0x20_0000, 3);
    /// let gic = Region::new(0x0800_0000, 0x0800_0000, 0x1_0000, 3);
    /// let config = Config::new(&[memory, gic], 1).expect("few enough regions");
    ///
    /// let mut table = Table::new();
    /// table.request(&config, Request::add_zone(5)).expect("there is none");
    /// table.request(&config, Request::insert(5, Side::Cpu, memory)).expect("a configured region");
    ///
    /// let line = "5 CPU 0x0000000040000000 0x0000000080000000 0x0000000000200000 3 262144\n";
    /// assert_eq!(table.listing(&config), Ok(line.into()));
    /// assert_eq!(table.list(&config, &mut []), Err(ListingRefusal::BufferShort));
    /// ```
    pub fn list(&self, config: &Config, buffer: &mut [u8]) -> Result<usize, ListingRefusal> {
        let (number, length) = raw::list(config, self, buffer);
        // A listing's length is that of bytes in memory.
        ListingRefusal::from_library(number).map(|()| length as usize)
    }

    /// The same listing as text of its own.
    pub fn listing(&self, config: &Config) -> Result<String, ListingRefusal> {
        let mut buffer = vec![0; LONGEST_LISTING];
        let length = self.list(config, &mut buffer)?;
        buffer.truncate(length);
        Ok(String::from_utf8(buffer).expect("a listing is ASCII"))
    }
}
