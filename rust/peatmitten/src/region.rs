/// A guest (virtual) address.
#[derive(Clone, Copy, Debug, PartialEq, Eq, PartialOrd, Ord, Hash)]
pub struct Guest(pub u64);

/// A physical address.
#[derive(Clone, Copy, Debug, PartialEq, Eq, PartialOrd, Ord, Hash)]
pub struct Physical(pub u64);

/// A number of bytes. It is a type of its own, so that none is taken for an address:
///
/// ```compile_fail,E0308
/// use peatmitten::{ByteCount, Physical};
///
/// let remaining: ByteCount = Physical(0x8000_0000);
/// ```
#[derive(Clone, Copy, Debug, PartialEq, Eq, PartialOrd, Ord, Hash)]
pub struct ByteCount(pub u64);

/// What may be done with a region: a sum of [`READ`](Rights::READ), [`WRITE`](Rights::WRITE) and [`EXECUTE`](Rights::EXECUTE). It is a type
/// of its own, so that no size or address is taken for it:
///
/// ```compile_fail,E0308
/// use peatmitten::{ByteCount, Rights};
///
/// let rights: Rights = ByteCount(3);
/// ```
#[derive(Clone, Copy, Debug, PartialEq, Eq, Hash)]
pub struct Rights(pub u64);

impl Rights {
    /// The right to read.
    pub const READ: u64 = 1;
    /// The right to write.
    pub const WRITE: u64 = 2;
    /// The right to execute.
    pub const EXECUTE: u64 = 4;
}

/// A stretch of guest addresses and the stretch of physical addresses behind it.
#[derive(Clone, Copy, Debug, PartialEq, Eq, Hash)]
pub struct Region {
    /// Where it starts in guest addresses.
    pub v: Guest,
    /// Where it starts in physical addresses.
    pub p: Physical,
    /// Its size in bytes.
    pub size: u64,
    /// What may be done with it.
    pub rights: Rights,
}

impl Region {
    /// How many words a region is.
    pub const WORDS: usize = 4;

    /// A region from its guest start, its physical start, its size and its rights.
    pub const fn new(v: u64, p: u64, size: u64, rights: u64) -> Region {
        Region { v: Guest(v), p: Physical(p), size, rights: Rights(rights) }
    }

    /// How many bytes a region is in a plan: each word is 8.
    pub(crate) const BYTES: u64 = Region::WORDS as u64 * 8;

    pub(crate) const fn from_words([v, p, size, rights]: [u64; Region::WORDS]) -> Region {
        Region::new(v, p, size, rights)
    }

    pub(crate) fn words(&self) -> [u64; Region::WORDS] {
        [self.v.0, self.p.0, self.size, self.rights.0]
    }

    /// The regions that stand in these words, one after the other.
    pub(crate) fn in_words(words: &[u64]) -> impl Iterator<Item = Region> + '_ {
        words.chunks_exact(Region::WORDS).map(|record| Region::from_words(record.try_into().expect("a record's words")))
    }
}
