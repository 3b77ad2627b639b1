//! How a state is kept: as bytes, and in a file that a cut in power leaves whole.

use std::ffi::OsString;
use std::fs::{self, File};
use std::io::{self, Read, Write};
use std::path::{Path, PathBuf};

use crate::config::{Config, CONFIG_WORDS};
use crate::plan::State;
use crate::table::{Table, TABLE_WORDS};

const WORD: usize = 8;
const TABLE_AT: usize = CONFIG_WORDS * WORD;
const EDITION_AT: usize = TABLE_AT + TABLE_WORDS * WORD;

/// How many bytes a stored state is: those of the C library's `peatmitten_state`, its padding included.
pub const STATE_BYTES: usize = EDITION_AT + WORD;

impl State {
    /// The state as bytes, as a file keeps it: the words of the configuration and of the table, the edition, and zeros for the padding.
    /// All numbers have their lowest byte first.
    pub fn to_bytes(&self) -> [u8; STATE_BYTES] {
        let mut bytes = [0; STATE_BYTES];
        let words = self.config.words().iter().chain(self.table.words());
        for (place, word) in bytes.chunks_exact_mut(WORD).zip(words) {
            place.copy_from_slice(&word.to_le_bytes());
        }
        bytes[EDITION_AT..EDITION_AT + 4].copy_from_slice(&self.edition.to_le_bytes());
        bytes
    }

    /// The state that the bytes are. None if there are not as many as a state has; any numbers will do, sound or not.
    ///
    /// ```
    /// use peatmitten::{Config, Region, State};
    ///
    /// let state = State::new(Config::new(&[Region::new(0, 0, 0x1000, 3)], 0).expect("few enough regions"));
    /// assert_eq!(State::from_bytes(&state.to_bytes()), Some(state));
    /// assert_eq!(State::from_bytes(b"short"), None);
    /// ```
    pub fn from_bytes(bytes: &[u8]) -> Option<State> {
        let bytes: &[u8; STATE_BYTES] = bytes.try_into().ok()?;
        let config = Config::from_words(words_in(&bytes[..TABLE_AT]));
        let table = Table::from_words(words_in(&bytes[TABLE_AT..EDITION_AT]));
        let [a, b, c, d, ..] = bytes[EDITION_AT..] else { return None };
        Some(State { config, table, edition: u32::from_le_bytes([a, b, c, d]) })
    }

    /// Reads a state file. What it says is on the disk when this returns, also where the process that wrote it was stopped before
    /// it had made it last. An error names the file.
    pub fn load(path: &Path) -> io::Result<State> {
        let mut bytes = Vec::new();
        let file = File::open(path).map_err(because("open", path))?;
        file.take(STATE_BYTES as u64 + 1).read_to_end(&mut bytes).map_err(because("read", path))?;
        let state = State::from_bytes(&bytes).ok_or_else(|| not_a_state(path))?;
        sync_folder_of(path)?;
        Ok(state)
    }

    /// Keeps the state in a file. A cut in power at any time leaves the old file or the new one; when this returns, the new one. The
    /// state is written to a file beside, which has `.new` after its name. One process at a time may use a state file. An error names
    /// the file that could not be written.
    pub fn save(&self, path: &Path) -> io::Result<()> {
        replace_file(path, &self.to_bytes())
    }
}

/// Puts these bytes into a file, in the same way: the old file stays whole until the new one is.
pub fn replace_file(path: &Path, bytes: &[u8]) -> io::Result<()> {
    let beside = beside(path);
    let mut file = File::create(&beside).map_err(because("open", &beside))?;
    file.write_all(bytes).map_err(because("write", &beside))?;
    file.sync_all().map_err(because("sync", &beside))?;
    drop(file);
    fs::rename(&beside, path).map_err(because("replace", path))?;
    sync_folder_of(path)
}

fn words_in<const N: usize>(bytes: &[u8]) -> [u64; N] {
    let mut words = [0; N];
    for (word, place) in words.iter_mut().zip(bytes.chunks_exact(WORD)) {
        *word = place.iter().rev().fold(0, |number, byte| number << 8 | u64::from(*byte));
    }
    words
}

fn beside(path: &Path) -> PathBuf {
    let mut name = OsString::from(path);
    name.push(".new");
    PathBuf::from(name)
}

/// Makes what the folder says of the file last: that it is there, and which file has its name.
fn sync_folder_of(path: &Path) -> io::Result<()> {
    let folder = match path.parent() {
        Some(folder) if folder != Path::new("") => folder,
        _ => Path::new("."),
    };
    let file = File::open(folder).map_err(because("open", folder))?;
    file.sync_all().map_err(because("sync", folder))
}

/// An error of the system, with what could not be done to which file.
fn because<'a>(doing: &'a str, path: &'a Path) -> impl Fn(io::Error) -> io::Error + 'a {
    move |reason| io::Error::new(reason.kind(), format!("cannot {doing} {}: {reason}", path.display()))
}

fn not_a_state(path: &Path) -> io::Error {
    io::Error::new(io::ErrorKind::InvalidData, format!("{} is no state file: a state has {STATE_BYTES} bytes", path.display()))
}
