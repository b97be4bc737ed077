//! Refusals.
use std::error::Error;
use std::fmt;
use vobrekan_sys as sys;

use crate::{ListenerId, PassId, RegionId, SpaceId};

/// What is not there, or is there already.
///
/// ```
/// # use vobrekan::*;
/// # let mut machine = Machine::new(1 << 16)?;
/// # let (board, ram) = (machine.region(Kind::Container, WHOLE)?, machine.region(Kind::Ram, 0x2000)?);
/// # machine.space(SpaceId(0), board)?;
/// # machine.add(board, 0, ram, 0)?;
/// let nothing = machine.enable(RegionId(9), true);
/// assert_eq!(nothing, Err(Refusal::Unknown(What::Region(RegionId(9)))));
/// # Ok::<(), Refusal>(())
/// ```
#[non_exhaustive]
#[derive(Clone, Copy, Debug, PartialEq, Eq)]
pub enum What {
    /// A region.
    Region(RegionId),
    /// An address space.
    Space(SpaceId),
    /// A listener.
    Listener(ListenerId),
    /// The translation at this offset.
    Entry(u64),
    /// The ioeventfd at this offset.
    Event(u64),
    /// A sort of thing that this crate does not know, with its number.
    Other(u32, u64),
}

/// Why a call is refused. A refused call changes nothing of the map.
///
/// ```
/// # use vobrekan::*;
/// # let mut machine = Machine::new(1 << 16)?;
/// # let (board, ram) = (machine.region(Kind::Container, WHOLE)?, machine.region(Kind::Ram, 0x2000)?);
/// # machine.space(SpaceId(0), board)?;
/// # machine.add(board, 0, ram, 0)?;
/// let refusal = machine.add(board, 0, ram, 0).unwrap_err();
/// assert_eq!(refusal, Refusal::HasContainer(board));
/// assert_eq!(refusal.to_string(), "the region is in region 0 already");
/// # Ok::<(), Refusal>(())
/// ```
#[non_exhaustive]
#[derive(Clone, Copy, Debug, PartialEq, Eq)]
pub enum Refusal {
    /// Something that the call names is not there.
    Unknown(What),
    /// The space or the listener is there already.
    NameTaken(What),
    /// The region is in this container.
    HasContainer(RegionId),
    /// The region is in another container than the one named, or in none.
    NotChild(RegionId),
    /// An alias takes no children.
    AliasParent(RegionId),
    /// The region to be the container is the child, or is reached from it.
    Loop(RegionId),
    /// Some region would have this depth, which is above 32.
    TooDeep(u64),
    /// Some region would have this weight, which is above 65,536.
    TooWide(u64),
    /// A size, or a range of bytes, that is not valid.
    BadSize,
    /// Access sizes, registers or an ioeventfd that no device has.
    BadOps,
    /// A region of another kind than the call is for.
    WrongKind(RegionId),
    /// A commit with no transaction open.
    NoTransaction,
    /// A begin with 64 transactions open.
    TooNested,
    /// The region is used: by a region, or as the root of a space.
    InUse(What),
    /// The translation meets the one at this offset.
    PageOverlap(u64),
    /// The page of a translation is no power of two, or not aligned to its size.
    BadPage,
    /// The count of this number (`VB_LIMIT_REGIONS` and so on) stands at this limit.
    LimitReached(u32, u64),
    /// No hole of the pool has this number of words.
    NoBacking(u64),
    /// The pass may still use this generation, which a publish would overwrite; at a desk, the virtual CPU of this number.
    Held(PassId, u64),
    /// The region has this ioeventfd.
    EventTaken,
    /// Out of memory.
    Memory,
    /// An argument that stands for nothing, or a buffer that is too short: this much room is wanted.
    Argument(u64),
    /// The handle has no machine, desk or virtual CPU.
    NoMachine,
    /// A write of one word would replace only a part of some word, in this generation.
    NotWhole(u64),
    /// All 16 virtual CPUs are handed out.
    NoCpu,
    /// The virtual CPU is entered in no generation.
    NotEntered,
    /// What listeners were told is forgotten up to this index.
    Forgotten(u64),
    /// A code that this crate does not know.
    Other(u32),
}

fn what_of(sort: u32, value: u64) -> What {
    match sort {
        sys::VB_SORT_REGION => What::Region(RegionId(value as u32)),
        sys::VB_SORT_SPACE => What::Space(SpaceId(value as u32)),
        sys::VB_SORT_LISTENER => What::Listener(ListenerId(value as u32)),
        sys::VB_SORT_ENTRY => What::Entry(value),
        sys::VB_SORT_EVENT => What::Event(value),
        _ => What::Other(sort, value),
    }
}

/// The answer, or the refusal that it is.
pub(crate) fn accepted(answer: sys::vb_answer) -> Result<sys::vb_answer, Refusal> {
    let sys::vb_answer { code, what, value, other } = answer;
    let region = RegionId(value as u32);
    Err(match code {
        sys::VB_DONE => return Ok(answer),
        sys::VB_UNKNOWN => Refusal::Unknown(what_of(what, value)),
        sys::VB_NAME_TAKEN => Refusal::NameTaken(what_of(what, value)),
        sys::VB_HAS_CONTAINER => Refusal::HasContainer(region),
        sys::VB_NOT_CHILD => Refusal::NotChild(region),
        sys::VB_ALIAS_PARENT => Refusal::AliasParent(region),
        sys::VB_LOOP => Refusal::Loop(region),
        sys::VB_TOO_DEEP => Refusal::TooDeep(value),
        sys::VB_TOO_WIDE => Refusal::TooWide(value),
        sys::VB_BAD_SIZE => Refusal::BadSize,
        sys::VB_BAD_OPS => Refusal::BadOps,
        sys::VB_WRONG_KIND => Refusal::WrongKind(region),
        sys::VB_NO_TRANSACTION => Refusal::NoTransaction,
        sys::VB_TOO_NESTED => Refusal::TooNested,
        sys::VB_IN_USE => Refusal::InUse(what_of(what, value)),
        sys::VB_PAGE_OVERLAP => Refusal::PageOverlap(value),
        sys::VB_BAD_PAGE => Refusal::BadPage,
        sys::VB_LIMIT_REACHED => Refusal::LimitReached(what, value),
        sys::VB_NO_BACKING => Refusal::NoBacking(value),
        sys::VB_HELD => Refusal::Held(PassId(value as u32), other),
        sys::VB_EVENT_TAKEN => Refusal::EventTaken,
        sys::VB_MEMORY => Refusal::Memory,
        sys::VB_ARGUMENT => Refusal::Argument(value),
        sys::VB_NO_MACHINE => Refusal::NoMachine,
        sys::VB_NOT_WHOLE => Refusal::NotWhole(other),
        sys::VB_NO_CPU => Refusal::NoCpu,
        sys::VB_NOT_ENTERED => Refusal::NotEntered,
        _ => Refusal::Other(code),
    })
}

impl fmt::Display for What {
    fn fmt(&self, f: &mut fmt::Formatter<'_>) -> fmt::Result {
        match self {
            What::Region(region) => write!(f, "region {}", region.0),
            What::Space(space) => write!(f, "address space {}", space.0),
            What::Listener(listener) => write!(f, "listener {}", listener.0),
            What::Entry(offset) => write!(f, "the translation at {offset:#x}"),
            What::Event(offset) => write!(f, "the ioeventfd at {offset:#x}"),
            What::Other(sort, value) => write!(f, "thing {value} of sort {sort}"),
        }
    }
}

impl fmt::Display for Refusal {
    fn fmt(&self, f: &mut fmt::Formatter<'_>) -> fmt::Result {
        match self {
            Refusal::Unknown(what) => write!(f, "{what} is not there"),
            Refusal::NameTaken(what) => write!(f, "{what} is there already"),
            Refusal::HasContainer(region) => write!(f, "the region is in region {} already", region.0),
            Refusal::NotChild(region) => write!(f, "region {} is in no container, or in another one", region.0),
            Refusal::AliasParent(region) => write!(f, "region {} is an alias, which takes no children", region.0),
            Refusal::Loop(region) => write!(f, "region {} cannot be the container: it is reached from the child", region.0),
            Refusal::TooDeep(depth) => write!(f, "a depth of {depth}"),
            Refusal::TooWide(weight) => write!(f, "a weight of {weight}"),
            Refusal::BadSize => write!(f, "the size or the range of offsets is not valid"),
            Refusal::BadOps => write!(f, "the access sizes, the registers or the ioeventfd are not valid"),
            Refusal::WrongKind(region) => write!(f, "region {} is of another kind than the call is for", region.0),
            Refusal::NoTransaction => write!(f, "no transaction is open"),
            Refusal::TooNested => write!(f, "64 transactions are open already"),
            Refusal::InUse(user) => write!(f, "the region is used by {user}"),
            Refusal::PageOverlap(iova) => write!(f, "the translation meets the one at {iova:#x}"),
            Refusal::BadPage => write!(f, "the size of the page is no power of two, or the page is not aligned to it"),
            Refusal::LimitReached(_, limit) => write!(f, "a count stands at its limit {limit}"),
            Refusal::NoBacking(words) => write!(f, "no hole of the pool has {words} words"),
            Refusal::Held(pass, generation) => write!(f, "pass {} may still use generation {generation}", pass.0),
            Refusal::EventTaken => write!(f, "the region has this ioeventfd already"),
            Refusal::Memory => write!(f, "out of memory"),
            Refusal::Argument(value) => write!(f, "the argument {value} stands for nothing"),
            Refusal::NoMachine => write!(f, "the handle has no machine"),
            Refusal::NotWhole(_) => write!(f, "only a part of some word would be replaced"),
            Refusal::NoCpu => write!(f, "all virtual CPUs are handed out"),
            Refusal::NotEntered => write!(f, "the virtual CPU is entered in no generation"),
            Refusal::Forgotten(until) => write!(f, "what listeners were told is forgotten up to {until}"),
            Refusal::Other(code) => write!(f, "code {code}"),
        }
    }
}

impl Error for Refusal {}
