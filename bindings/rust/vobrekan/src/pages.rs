//! Pages that were written.
use crate::refusal::accepted;
use crate::{Refusal, RegionId};
use vobrekan_sys as sys;

/// The most words of marks that a region of the machine's own memory has: it is at most the pool, 2^29 bytes, with a bit for each page.
const MOST_MARKS: u64 = (1 << 29) / 4096 / 64;

/// Pages of 4,096 bytes of a region, a bit for each.
///
/// ```
/// # use vobrekan::*;
/// # let mut machine = Machine::new(1 << 16)?;
/// # let (board, ram) = (machine.region(Kind::Container, WHOLE)?, machine.region(Kind::Ram, 0x2000)?);
/// # machine.space(SpaceId(0), board)?;
/// # machine.add(board, 0, ram, 0)?;
/// machine.log(ram, Client::Migration, true)?;
/// machine.write(PassId(0), SpaceId(0), 0xfff, &[1, 2])?; // over the border of two pages
/// let pages: Pages = machine.harvest(ram, Client::Migration)?;
/// assert_eq!((pages.len(), pages.words()), (2, &[3][..]));
/// assert_eq!(pages.iter().collect::<Vec<_>>(), [0, 1]);
/// assert!(machine.harvest(ram, Client::Migration)?.is_empty());
/// # Ok::<(), Refusal>(())
/// ```
#[derive(Clone, Debug, Default, PartialEq, Eq)]
pub struct Pages {
    words: Vec<u64>,
    count: u64,
}

impl Pages {
    /// What a call harvests of a region into a buffer. It is asked for the room first: without any it says how much it takes. A region that takes more
    /// than the machine's own memory can is none of it, and is refused as such, as the library does once it has the room.
    pub(crate) fn harvested(region: RegionId, mut harvest: impl FnMut(&mut [u64]) -> sys::vb_answer) -> Result<Pages, Refusal> {
        let mut words = Vec::new();
        loop {
            match accepted(harvest(&mut words)) {
                Ok(answer) => return Ok(Pages { words, count: answer.value }),
                Err(Refusal::Argument(room)) if room > MOST_MARKS => return Err(Refusal::WrongKind(region)),
                Err(Refusal::Argument(room)) if room as usize > words.len() => words = vec![0; room as usize],
                Err(refusal) => return Err(refusal),
            }
        }
    }

    /// The words: page 64 i + b was written where bit b of word i is set.
    pub fn words(&self) -> &[u64] {
        &self.words
    }

    /// How many pages were written.
    pub fn len(&self) -> u64 {
        self.count
    }

    /// Whether none was.
    pub fn is_empty(&self) -> bool {
        self.count == 0
    }

    /// The numbers of the pages that were written, ascending.
    pub fn iter(&self) -> impl Iterator<Item = u64> + '_ {
        (0..).zip(&self.words).flat_map(|(i, word)| (0..64).filter(move |b| word >> b & 1 == 1).map(move |b| 64 * i + b))
    }
}
