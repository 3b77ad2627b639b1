use crate::answers::WriteRefusal;
use crate::limits::LONGEST_PLAN;
use crate::plan::State;
use crate::raw;
use crate::request::Request;

impl State {
    /// Writes the plan that asks for these requests of a terminal in this state, and says how many bytes it has: so many from the
    /// buffer's start are then the plan, and those behind them are what they were. A refusal changes no byte.
    ///
    /// The state is lent so that the requests can be tried where it lies; afterwards it is what it was.
    ///
    /// ```
    /// use peatmitten::{Config, Refusal, Region, Request, State, WriteRefusal};
    ///
    /// let gic = Region::new(0x0800_0000, 0x0800_0000, 0x1_0000, 3);
    /// let mut state = State::new(Config::new(&[gic], 0).expect("few enough regions"));
    /// let add = Request::add_zone(5);
    ///
    /// let mut buffer = [7; 120];
    /// let length = state.write(&[add], &mut buffer).expect("a sound state, and a request that it accepts");
    /// assert_eq!(buffer[length..], [7; 120][length..]);
    /// assert_eq!(state.apply(&buffer[..length]), Ok(1));
    ///
    /// let refusal = WriteRefusal::Request { index: 0, refusal: Refusal::ZoneThere };
    /// assert_eq!(state.write(&[add], &mut []), Err(refusal));
    /// assert_eq!(state.write(&[], &mut []), Err(WriteRefusal::BufferShort));
    /// ```
    pub fn write(&mut self, requests: &[Request], buffer: &mut [u8]) -> Result<usize, WriteRefusal> {
        let records: Vec<u8> = requests.iter().flat_map(Request::to_bytes).collect();
        let (number, [place, inner]) = raw::write_words(&self.config, &mut self.table, self.edition, &records, buffer);
        // A plan's length is that of bytes in memory.
        WriteRefusal::from_library(number, place, inner).map(|()| place as usize)
    }

    /// The same plan in bytes of its own.
    pub fn plan(&mut self, requests: &[Request]) -> Result<Vec<u8>, WriteRefusal> {
        let mut plan = vec![0; LONGEST_PLAN];
        let length = self.write(requests, &mut plan)?;
        plan.truncate(length);
        Ok(plan)
    }
}
