//! The memory map of a guest: QEMU's memory regions and address spaces, as proved software behind a safe interface.
//!
//! A [`Machine`] has regions in containers, address spaces whose roots they are, and memory and devices behind them. What is
//! changed is published at once, or by the end of a [`Transaction`]; look-ups and accesses go by what is published. Each method
//! is one call of the library `libvobrekan`, and what the call does is proved there. A [`Desk`] has a machine whose map changes beside virtual CPUs
//! ([`Cpu`]), each on a thread of its own.
//!
//! ```
//! use vobrekan::{Kind, Machine, PassId, SpaceId, WHOLE};
//!
//! let mut machine = Machine::new(1 << 16)?; // a pool of 2^16 words of 8 bytes
//! let mut change = machine.transaction()?;
//! let board = change.region(Kind::Container, WHOLE)?;
//! let ram = change.region(Kind::Ram, 0x2000)?;
//! change.space(SpaceId(0), board)?;
//! change.add(board, 0x1000, ram, 0)?; // at 0x1000, with priority 0
//! change.commit()?;
//!
//! assert_eq!(machine.find(SpaceId(0), 0x1010)?.offset, 0x10);
//! machine.write(PassId(0), SpaceId(0), 0x1010, &[1, 2])?;
//! let mut bytes = [0; 2];
//! machine.read(PassId(0), SpaceId(0), 0x1010, &mut bytes)?;
//! assert_eq!(bytes, [1, 2]);
//! # Ok::<(), vobrekan::Refusal>(())
//! ```
//!
//! Each call takes `&mut self`, and what it is called on may go to another thread ([`Send`]), but is not shared ([`Sync`]): see [`Machine`].
#![deny(missing_docs)]
// The library asks of its callers that one call at a time works on a handle, and none on a copy of it; that no pointer is null, and each is good for its
// length; and that two parameters do not overlap. Here a handle is a private field that is never copied, and every pointer comes from a reference or a slice.
#![deny(clippy::undocumented_unsafe_blocks)]

mod bus;
mod cpus;
mod pages;
mod refusal;
mod script;
mod values;

use std::ops::{Deref, DerefMut};
use std::ptr::null_mut;

/// The declarations of the library, for the numbers that its structs have.
///
/// ```
/// assert_eq!(vobrekan::sys::VB_DONE, 0);
/// ```
pub use vobrekan_sys as sys;

pub use bus::Bus;
pub use cpus::{Cpu, Desk, Order, Written};
pub use pages::Pages;
pub use refusal::{Refusal, What};
pub use script::{Ran, run};
pub use values::{
    Access, Client, Device, FlatRange, Found, Ioevent, Kind, ListenerCall, ListenerId, PassId, Perm, Reached, RegionId, SpaceId, WHOLE, Way,
};

use refusal::accepted;

/// The example of the page of this crate, which is tested so.
#[cfg(doctest)]
#[doc = include_str!("../README.md")]
struct Page;

/// A machine, with its map and its memory.
///
/// It may go to another thread, and is not shared between threads: what several threads call is behind a lock of theirs.
///
/// ```
/// fn goes_to_a_thread<T: Send>() {}
/// goes_to_a_thread::<vobrekan::Machine>();
/// goes_to_a_thread::<std::sync::Mutex<vobrekan::Machine>>();
/// ```
///
/// ```compile_fail,E0277
/// fn is_shared<T: Sync>() {}
/// is_shared::<vobrekan::Machine>();
/// ```
#[derive(Debug)]
pub struct Machine {
    handle: sys::vb_machine,
    /// How many regions were dropped and are not released yet, at most.
    dropped: usize,
    /// How many calls of listeners are forgotten.
    forgotten: usize,
    /// How many transactions have ended and are still open.
    left_open: usize,
}

// SAFETY: the library proves that a handle may go to another thread. A call takes `&mut self`, so one works on it at a time.
unsafe impl Send for Machine {}

impl Drop for Machine {
    fn drop(&mut self) {
        // SAFETY: the handle is borrowed for the call; any numbers may be given.
        unsafe { sys::vb_free(&mut self.handle) }
    }
}

/// What listeners were told from the index `from` on, where the first `forgotten` calls are forgotten; `delivery` tells one of the others.
fn told(
    from: usize, forgotten: usize, mut delivery: impl FnMut(usize, &mut ListenerCall) -> sys::vb_answer,
) -> Result<Vec<ListenerCall>, Refusal> {
    let from = from.checked_sub(forgotten).ok_or(Refusal::Forgotten(forgotten as u64))?;
    let mut calls = Vec::new();
    loop {
        let mut call = ListenerCall::default();
        let index = from.saturating_add(calls.len());
        if index as u64 >= accepted(delivery(index, &mut call))?.value {
            return Ok(calls);
        }
        calls.push(call);
    }
}

/// The number of the generation that was published, if one was.
fn published(answer: sys::vb_answer) -> Option<u64> {
    (answer.other != 0).then_some(answer.other)
}

impl Machine {
    /// A machine over a pool of this many words of 8 bytes, at most 2^26: the memory of RAM, ROM and ROM devices, their marks,
    /// and the registers of devices are in the pool.
    pub fn new(words: usize) -> Result<Machine, Refusal> {
        let mut machine = Machine { handle: sys::vb_machine { at: null_mut() }, dropped: 0, forgotten: 0, left_open: 0 };
        // SAFETY: the handle is borrowed for the call, and has nothing yet; any number may be given.
        accepted(unsafe { sys::vb_new(&mut machine.handle, words) })?;
        Ok(machine)
    }

    /// Makes a region. It is in no container.
    pub fn region(&mut self, kind: Kind, size: u64) -> Result<RegionId, Refusal> {
        let at = &mut self.handle;
        // SAFETY: the handle and the devices are borrowed for the call; any numbers may be given.
        let answer = accepted(unsafe {
            match kind {
                Kind::Container => sys::vb_container(at, size),
                Kind::Ram => sys::vb_ram(at, size),
                Kind::Rom => sys::vb_rom(at, size),
                Kind::RomDevice(device) => sys::vb_rom_device(at, size, &device),
                Kind::Io(device) => sys::vb_io(at, size, &device),
                Kind::Iommu => sys::vb_iommu(at, size),
                Kind::Alias(target, offset) => sys::vb_alias(at, size, target.0, offset),
                Kind::Reserve => sys::vb_reserve(at, size),
                Kind::Host => sys::vb_host(at, size),
            }
        })?;
        Ok(RegionId(answer.value as u32))
    }

    /// Makes an address space with this root.
    pub fn space(&mut self, space: SpaceId, root: RegionId) -> Result<Option<u64>, Refusal> {
        // SAFETY: the handle is borrowed for the call; any numbers may be given.
        Ok(published(accepted(unsafe { sys::vb_space(&mut self.handle, space.0, root.0) })?))
    }

    /// Places a region in a container.
    ///
    /// ```
    /// # use vobrekan::*;
    /// # let mut machine = Machine::new(1 << 16)?;
    /// # let (board, ram) = (machine.region(Kind::Container, WHOLE)?, machine.region(Kind::Ram, 0x2000)?);
    /// # machine.space(SpaceId(0), board)?;
    /// # machine.add(board, 0, ram, 0)?;
    /// let window = machine.region(Kind::Alias(ram, 0), 0x1000)?;
    /// machine.add(board, 0x1000, window, 1)?; // over the RAM
    /// assert_eq!(machine.find(SpaceId(0), 0x1000)?.offset, 0);
    /// # Ok::<(), Refusal>(())
    /// ```
    pub fn add(&mut self, parent: RegionId, offset: u64, child: RegionId, priority: i32) -> Result<Option<u64>, Refusal> {
        // SAFETY: the handle is borrowed for the call; any numbers may be given.
        Ok(published(accepted(unsafe { sys::vb_add(&mut self.handle, parent.0, offset, child.0, priority) })?))
    }

    /// Takes a region out of its container.
    pub fn del(&mut self, parent: RegionId, child: RegionId) -> Result<Option<u64>, Refusal> {
        // SAFETY: the handle is borrowed for the call; any numbers may be given.
        Ok(published(accepted(unsafe { sys::vb_del(&mut self.handle, parent.0, child.0) })?))
    }

    /// Moves a region in its container.
    ///
    /// ```
    /// # use vobrekan::*;
    /// # let mut machine = Machine::new(1 << 16)?;
    /// # let (board, ram) = (machine.region(Kind::Container, WHOLE)?, machine.region(Kind::Ram, 0x2000)?);
    /// # machine.space(SpaceId(0), board)?;
    /// # machine.add(board, 0, ram, 0)?;
    /// assert_eq!(machine.move_to(ram, 0x8000)?, Some(3)); // the number of the generation that shows it
    /// assert_eq!(machine.find(SpaceId(0), 0x8000)?.region, ram.0);
    /// # Ok::<(), Refusal>(())
    /// ```
    pub fn move_to(&mut self, child: RegionId, offset: u64) -> Result<Option<u64>, Refusal> {
        // SAFETY: the handle is borrowed for the call; any numbers may be given.
        Ok(published(accepted(unsafe { sys::vb_move(&mut self.handle, child.0, offset) })?))
    }

    /// Gives a region another size: any region but memory.
    ///
    /// ```
    /// # use vobrekan::*;
    /// # let mut machine = Machine::new(1 << 16)?;
    /// # let (board, ram) = (machine.region(Kind::Container, WHOLE)?, machine.region(Kind::Ram, 0x2000)?);
    /// # machine.space(SpaceId(0), board)?;
    /// # machine.add(board, 0, ram, 0)?;
    /// assert_eq!(machine.resize(ram, 0x1000), Err(Refusal::WrongKind(ram)));
    /// machine.resize(board, 0x1800)?;
    /// assert_eq!(machine.find(SpaceId(0), 0)?.last, 0x17ff);
    /// # Ok::<(), Refusal>(())
    /// ```
    pub fn resize(&mut self, region: RegionId, size: u64) -> Result<Option<u64>, Refusal> {
        // SAFETY: the handle is borrowed for the call; any numbers may be given.
        Ok(published(accepted(unsafe { sys::vb_resize(&mut self.handle, region.0, size) })?))
    }

    /// Moves the window of an alias in its target.
    ///
    /// ```
    /// # use vobrekan::*;
    /// # let mut machine = Machine::new(1 << 16)?;
    /// # let (board, ram) = (machine.region(Kind::Container, WHOLE)?, machine.region(Kind::Ram, 0x2000)?);
    /// # machine.space(SpaceId(0), board)?;
    /// # machine.add(board, 0, ram, 0)?;
    /// let window = machine.region(Kind::Alias(ram, 0), 0x1000)?;
    /// machine.add(board, 0x8000, window, 0)?;
    /// machine.retarget(window, 0x1000)?;
    /// assert_eq!(machine.find(SpaceId(0), 0x8010)?.offset, 0x1010);
    /// # Ok::<(), Refusal>(())
    /// ```
    pub fn retarget(&mut self, alias: RegionId, offset: u64) -> Result<Option<u64>, Refusal> {
        // SAFETY: the handle is borrowed for the call; any numbers may be given.
        Ok(published(accepted(unsafe { sys::vb_retarget(&mut self.handle, alias.0, offset) })?))
    }

    /// Switches a region on or off: one that is off is left out wherever it stands.
    pub fn enable(&mut self, region: RegionId, on: bool) -> Result<Option<u64>, Refusal> {
        // SAFETY: the handle is borrowed for the call; any numbers may be given.
        Ok(published(accepted(unsafe { sys::vb_enable(&mut self.handle, region.0, on) })?))
    }

    /// Switches whether what is found through the region is read-only.
    ///
    /// ```
    /// # use vobrekan::*;
    /// # let mut machine = Machine::new(1 << 16)?;
    /// # let (board, ram) = (machine.region(Kind::Container, WHOLE)?, machine.region(Kind::Ram, 0x2000)?);
    /// # machine.space(SpaceId(0), board)?;
    /// # machine.add(board, 0, ram, 0)?;
    /// machine.readonly(ram, true)?;
    /// assert!(machine.find(SpaceId(0), 0)?.readonly);
    /// assert!(machine.write(PassId(0), SpaceId(0), 0, &[1])?.decode); // nothing is written
    /// # Ok::<(), Refusal>(())
    /// ```
    pub fn readonly(&mut self, region: RegionId, on: bool) -> Result<Option<u64>, Refusal> {
        // SAFETY: the handle is borrowed for the call; any numbers may be given.
        Ok(published(accepted(unsafe { sys::vb_readonly(&mut self.handle, region.0, on) })?))
    }

    /// Switches whether what is found through the region is non-volatile.
    pub fn nonvolatile(&mut self, region: RegionId, on: bool) -> Result<Option<u64>, Refusal> {
        // SAFETY: the handle is borrowed for the call; any numbers may be given.
        Ok(published(accepted(unsafe { sys::vb_nonvolatile(&mut self.handle, region.0, on) })?))
    }

    /// Switches whether ranges that are found through the region end where the path to their leaf changes.
    pub fn unmergeable(&mut self, region: RegionId, on: bool) -> Result<Option<u64>, Refusal> {
        // SAFETY: the handle is borrowed for the call; any numbers may be given.
        Ok(published(accepted(unsafe { sys::vb_unmergeable(&mut self.handle, region.0, on) })?))
    }

    /// Switches the mode of a ROM device.
    pub fn romd(&mut self, region: RegionId, on: bool) -> Result<Option<u64>, Refusal> {
        // SAFETY: the handle is borrowed for the call; any numbers may be given.
        Ok(published(accepted(unsafe { sys::vb_romd(&mut self.handle, region.0, on) })?))
    }

    /// Switches the logging of a region for one client.
    pub fn log(&mut self, region: RegionId, client: Client, on: bool) -> Result<Option<u64>, Refusal> {
        // SAFETY: the handle is borrowed for the call; any numbers may be given.
        Ok(published(accepted(unsafe { sys::vb_log(&mut self.handle, region.0, client as u32, on) })?))
    }

    /// Switches global logging.
    pub fn global(&mut self, on: bool) -> Result<Option<u64>, Refusal> {
        // SAFETY: the handle is borrowed for the call; any numbers may be given.
        Ok(published(accepted(unsafe { sys::vb_global(&mut self.handle, on) })?))
    }

    /// Puts a translation into the table of an IOMMU region: the page at `iova` goes on at an address of a space.
    ///
    /// ```
    /// # use vobrekan::*;
    /// # let mut machine = Machine::new(1 << 16)?;
    /// # let (board, ram) = (machine.region(Kind::Container, WHOLE)?, machine.region(Kind::Ram, 0x2000)?);
    /// # machine.space(SpaceId(0), board)?;
    /// # machine.add(board, 0, ram, 0)?;
    /// let bus = machine.region(Kind::Iommu, 0x1_0000)?;
    /// machine.space(SpaceId(1), bus)?;
    /// machine.load(ram, 0x1010, &[7])?;
    /// machine.map(bus, 0x4000, 0x1000, (SpaceId(0), 0x1000), Perm::Both)?;
    /// let mut byte = [0];
    /// machine.read(PassId(0), SpaceId(1), 0x4010, &mut byte)?;
    /// assert_eq!(byte, [7]);
    /// # Ok::<(), Refusal>(())
    /// ```
    pub fn map(&mut self, region: RegionId, iova: u64, size: u64, to: (SpaceId, u64), perm: Perm) -> Result<Option<u64>, Refusal> {
        // SAFETY: the handle is borrowed for the call; any numbers may be given.
        Ok(published(accepted(unsafe { sys::vb_map(&mut self.handle, region.0, iova, size, to.0.0, to.1, perm as u32) })?))
    }

    /// Takes a translation out.
    pub fn unmap(&mut self, region: RegionId, iova: u64) -> Result<Option<u64>, Refusal> {
        // SAFETY: the handle is borrowed for the call; any numbers may be given.
        Ok(published(accepted(unsafe { sys::vb_unmap(&mut self.handle, region.0, iova) })?))
    }

    /// Gives a device an ioeventfd.
    ///
    /// ```
    /// # use vobrekan::*;
    /// # let mut machine = Machine::new(1 << 16)?;
    /// # let (board, ram) = (machine.region(Kind::Container, WHOLE)?, machine.region(Kind::Ram, 0x2000)?);
    /// # machine.space(SpaceId(0), board)?;
    /// # machine.add(board, 0, ram, 0)?;
    /// let device = Device { regs: 1, valid_min: 1, valid_max: 4, impl_min: 1, impl_max: 4, ..Device::default() };
    /// let doorbell = machine.region(Kind::Io(device), 0x100)?;
    /// machine.add(board, 0x1_0000, doorbell, 0)?;
    /// let event = Ioevent { offset: 0x10, size: 4, number: 5, ..Ioevent::default() }; // any write of 4 bytes
    /// machine.event(doorbell, &event)?;
    /// machine.write(PassId(0), SpaceId(0), 0x1_0010, &[1, 0, 0, 0])?;
    /// assert!(machine.notified(5)?);
    /// # Ok::<(), Refusal>(())
    /// ```
    pub fn event(&mut self, region: RegionId, event: &Ioevent) -> Result<Option<u64>, Refusal> {
        // SAFETY: the handle and the value beside it are borrowed for the call; any numbers may be given.
        Ok(published(accepted(unsafe { sys::vb_event(&mut self.handle, region.0, event) })?))
    }

    /// Takes an ioeventfd away.
    pub fn unevent(&mut self, region: RegionId, event: &Ioevent) -> Result<Option<u64>, Refusal> {
        // SAFETY: the handle and the value beside it are borrowed for the call; any numbers may be given.
        Ok(published(accepted(unsafe { sys::vb_unevent(&mut self.handle, region.0, event) })?))
    }

    /// Drops a region that nothing uses.
    pub fn drop_region(&mut self, region: RegionId) -> Result<(), Refusal> {
        // SAFETY: the handle is borrowed for the call; any numbers may be given.
        accepted(unsafe { sys::vb_drop(&mut self.handle, region.0) })?;
        self.dropped += 1;
        Ok(())
    }

    /// Releases the dropped regions that no generation in use names, and answers them, ascending: their memory is free again.
    ///
    /// ```
    /// # use vobrekan::*;
    /// # let mut machine = Machine::new(1 << 16)?;
    /// # let (board, ram) = (machine.region(Kind::Container, WHOLE)?, machine.region(Kind::Ram, 0x2000)?);
    /// # machine.space(SpaceId(0), board)?;
    /// # machine.add(board, 0, ram, 0)?;
    /// machine.del(board, ram)?;
    /// machine.drop_region(ram)?;
    /// assert_eq!(machine.reap()?, [ram]);
    /// # Ok::<(), Refusal>(())
    /// ```
    pub fn reap(&mut self) -> Result<Vec<RegionId>, Refusal> {
        let mut out = vec![0; self.dropped];
        // SAFETY: the handle and the slices are borrowed for the call, and each pointer comes with the length of its slice.
        let count = accepted(unsafe { sys::vb_reap(&mut self.handle, out.as_mut_ptr(), out.len()) })?.value as usize;
        out.truncate(count);
        self.dropped -= out.len();
        Ok(out.into_iter().map(RegionId).collect())
    }

    /// Takes the marks of a region for one client: the pages that were written since they were last taken.
    pub fn harvest(&mut self, region: RegionId, client: Client) -> Result<Pages, Refusal> {
        // SAFETY: the handle and the slices are borrowed for the call, and each pointer comes with the length of its slice.
        Pages::harvested(region, |out| unsafe { sys::vb_harvest(&mut self.handle, region.0, client as u32, out.as_mut_ptr(), out.len()) })
    }

    /// Opens a transaction: what is changed through it is published when it is committed, or dropped.
    ///
    /// ```
    /// # use vobrekan::*;
    /// # let mut machine = Machine::new(1 << 16)?;
    /// # let (board, ram) = (machine.region(Kind::Container, WHOLE)?, machine.region(Kind::Ram, 0x2000)?);
    /// # machine.space(SpaceId(0), board)?;
    /// # machine.add(board, 0, ram, 0)?;
    /// let mut change = machine.transaction()?;
    /// assert_eq!(change.move_to(ram, 0x1000)?, None); // nothing is published yet
    /// assert_eq!(change.find(SpaceId(0), 0)?.region, ram.0);
    /// assert_eq!(change.commit()?, Some(3));
    /// assert!(!machine.find(SpaceId(0), 0)?.is_there);
    /// # Ok::<(), Refusal>(())
    /// ```
    pub fn transaction(&mut self) -> Result<Transaction<'_>, Refusal> {
        // SAFETY: the handle is borrowed for the call; any numbers may be given.
        accepted(unsafe { sys::vb_begin(&mut self.handle) })?;
        Ok(Transaction { machine: self, is_open: true })
    }

    /// Closes the transactions that have ended and are still open, since their commit was refused, as where memory ran out. It answers the number of the
    /// generation that was published, if one was. The end of a later transaction does it too.
    ///
    /// ```
    /// # use vobrekan::*;
    /// # let mut machine = Machine::new(1 << 16)?;
    /// # let (board, ram) = (machine.region(Kind::Container, WHOLE)?, machine.region(Kind::Ram, 0x2000)?);
    /// # machine.space(SpaceId(0), board)?;
    /// # machine.add(board, 0, ram, 0)?;
    /// let mut change = machine.transaction()?;
    /// change.move_to(ram, 0x1000)?;
    /// drop(change); // committed here, but where that is refused
    /// machine.close_transactions()?; // now it is
    /// assert!(!machine.find(SpaceId(0), 0)?.is_there);
    /// # Ok::<(), Refusal>(())
    /// ```
    pub fn close_transactions(&mut self) -> Result<Option<u64>, Refusal> {
        let mut last = None;
        while self.left_open > 0 {
            // SAFETY: the handle is borrowed for the call; any numbers may be given.
            last = published(accepted(unsafe { sys::vb_commit(&mut self.handle) })?);
            self.left_open -= 1;
        }
        Ok(last)
    }

    /// A listener joins a space.
    pub fn listen(&mut self, listener: ListenerId, space: SpaceId, priority: i32) -> Result<(), Refusal> {
        // SAFETY: the handle is borrowed for the call; any numbers may be given.
        accepted(unsafe { sys::vb_listen(&mut self.handle, listener.0, space.0, priority) })?;
        Ok(())
    }

    /// A listener leaves its space.
    pub fn unlisten(&mut self, listener: ListenerId) -> Result<(), Refusal> {
        // SAFETY: the handle is borrowed for the call; any numbers may be given.
        accepted(unsafe { sys::vb_unlisten(&mut self.handle, listener.0) })?;
        Ok(())
    }

    /// What an address of a space leads to, and how far it goes on alike. A space that is made in an open transaction is unknown until that is published.
    ///
    /// ```
    /// # use vobrekan::*;
    /// # let mut machine = Machine::new(1 << 16)?;
    /// # let (board, ram) = (machine.region(Kind::Container, WHOLE)?, machine.region(Kind::Ram, 0x2000)?);
    /// # machine.space(SpaceId(0), board)?;
    /// # machine.add(board, 0, ram, 0)?;
    /// let found = machine.find(SpaceId(0), 0x1234)?;
    /// assert_eq!((found.region, found.offset, found.last), (ram.0, 0x1234, 0x1fff));
    /// assert_eq!(machine.find(SpaceId(1), 0), Err(Refusal::Unknown(What::Space(SpaceId(1)))));
    /// # Ok::<(), Refusal>(())
    /// ```
    pub fn find(&mut self, space: SpaceId, addr: u64) -> Result<Found, Refusal> {
        let mut found = Found::default();
        // SAFETY: the handle and the value beside it are borrowed for the call; any numbers may be given.
        accepted(unsafe { sys::vb_find(&mut self.handle, space.0, addr, &mut found) })?;
        Ok(found)
    }

    /// The regions that a search passes on the way to the one that answers an address, from the root of the space on.
    ///
    /// ```
    /// # use vobrekan::*;
    /// # let mut machine = Machine::new(1 << 16)?;
    /// # let (board, ram) = (machine.region(Kind::Container, WHOLE)?, machine.region(Kind::Ram, 0x2000)?);
    /// # machine.space(SpaceId(0), board)?;
    /// # machine.add(board, 0, ram, 0)?;
    /// assert_eq!(machine.path(SpaceId(0), 0x10)?, [board, ram]);
    /// # Ok::<(), Refusal>(())
    /// ```
    pub fn path(&mut self, space: SpaceId, addr: u64) -> Result<Vec<RegionId>, Refusal> {
        let mut out = [0; 32];
        // SAFETY: the handle and the slices are borrowed for the call, and each pointer comes with the length of its slice.
        let count = accepted(unsafe { sys::vb_path(&mut self.handle, space.0, addr, out.as_mut_ptr(), out.len()) })?.value as usize;
        Ok(out[..count].iter().copied().map(RegionId).collect())
    }

    /// The ranges of the view of a space, by ascending address.
    ///
    /// ```
    /// # use vobrekan::*;
    /// # let mut machine = Machine::new(1 << 16)?;
    /// # let (board, ram) = (machine.region(Kind::Container, WHOLE)?, machine.region(Kind::Ram, 0x2000)?);
    /// # machine.space(SpaceId(0), board)?;
    /// # machine.add(board, 0, ram, 0)?;
    /// machine.move_to(ram, 0x1000)?;
    /// let shown: Vec<_> = machine.view(SpaceId(0))?.iter().map(|range| (range.start, range.last)).collect();
    /// assert_eq!(shown, [(0x1000, 0x2fff)]);
    /// # Ok::<(), Refusal>(())
    /// ```
    pub fn view(&mut self, space: SpaceId) -> Result<Vec<FlatRange>, Refusal> {
        let mut ranges = Vec::new();
        loop {
            let mut range = FlatRange::default();
            // SAFETY: the handle and the value beside it are borrowed for the call; any numbers may be given.
            let count = accepted(unsafe { sys::vb_range(&mut self.handle, space.0, ranges.len(), &mut range) })?.value;
            if ranges.len() as u64 >= count {
                return Ok(ranges);
            }
            ranges.push(range);
        }
    }

    /// The calls that listeners got from the index `from` on, counted from the first that was ever made: a caller that goes on from
    /// where it came to misses none. Refused where the call `from` is forgotten.
    ///
    /// A call's `range` is told with `VB_TOLD_DELETE`, `_ADD`, `_KEEP`, `_LOG_START` and `_LOG_STOP`, `from` and `to` with the last two, `event` with
    /// `VB_TOLD_EVENT_ADD` and `_EVENT_DEL`; what is not told is 0.
    ///
    /// ```
    /// # use vobrekan::*;
    /// # let mut machine = Machine::new(1 << 16)?;
    /// # let (board, ram) = (machine.region(Kind::Container, WHOLE)?, machine.region(Kind::Ram, 0x2000)?);
    /// # machine.space(SpaceId(0), board)?;
    /// # machine.add(board, 0, ram, 0)?;
    /// machine.listen(ListenerId(0), SpaceId(0), 0)?;
    /// let seen = machine.told(0)?.len();
    /// machine.enable(ram, false)?;
    /// assert!(machine.told(seen)?.iter().any(|call| call.what == sys::VB_TOLD_DELETE));
    /// # Ok::<(), Refusal>(())
    /// ```
    pub fn told(&mut self, from: usize) -> Result<Vec<ListenerCall>, Refusal> {
        // SAFETY: the handle and the value beside it are borrowed for the call; any numbers may be given.
        told(from, self.forgotten, |index, call| unsafe { sys::vb_delivery(&mut self.handle, index, call) })
    }

    /// Forgets the calls of listeners before the index `until`, counted from the first that was ever made. The others keep their
    /// indices, and the listeners stay. A machine that runs for long keeps all that listeners were told until it is forgotten here.
    ///
    /// ```
    /// # use vobrekan::*;
    /// # let mut machine = Machine::new(1 << 16)?;
    /// # let (board, ram) = (machine.region(Kind::Container, WHOLE)?, machine.region(Kind::Ram, 0x2000)?);
    /// # machine.space(SpaceId(0), board)?;
    /// # machine.add(board, 0, ram, 0)?;
    /// machine.listen(ListenerId(0), SpaceId(0), 0)?;
    /// assert_eq!(machine.told(0)?.len(), 3); // begin, a range, commit
    /// machine.forget(3)?;
    /// machine.enable(ram, false)?;
    /// assert_eq!(machine.told(3)?.len(), 3); // begin, the range is gone, commit
    /// assert_eq!(machine.told(0), Err(Refusal::Forgotten(3)));
    /// # Ok::<(), Refusal>(())
    /// ```
    pub fn forget(&mut self, until: usize) -> Result<(), Refusal> {
        let count = until.saturating_sub(self.forgotten);
        // SAFETY: the handle is borrowed for the call; any numbers may be given.
        self.forgotten += accepted(unsafe { sys::vb_forget(&mut self.handle, count) })?.value as usize;
        Ok(())
    }

    /// Reads bytes of a space, as many as there is room for. Where no such space is published, nothing answers.
    pub fn read(&mut self, pass: PassId, space: SpaceId, addr: u64, out: &mut [u8]) -> Result<Access, Refusal> {
        // SAFETY: the handle and the slices are borrowed for the call, and each pointer comes with the length of its slice.
        let answer = unsafe { sys::vb_read(&mut self.handle, pass.0, space.0, addr, out.as_mut_ptr(), out.len()) };
        Ok(access(accepted(answer)?))
    }

    /// Writes bytes to a space.
    ///
    /// ```
    /// # use vobrekan::*;
    /// # let mut machine = Machine::new(1 << 16)?;
    /// # let (board, ram) = (machine.region(Kind::Container, WHOLE)?, machine.region(Kind::Ram, 0x2000)?);
    /// # machine.space(SpaceId(0), board)?;
    /// # machine.add(board, 0, ram, 0)?;
    /// machine.write(PassId(0), SpaceId(0), 0x10, &[1, 2, 3])?;
    /// let mut bytes = [0; 4];
    /// machine.read(PassId(0), SpaceId(0), 0xf, &mut bytes)?;
    /// assert_eq!(bytes, [0, 1, 2, 3]);
    /// # Ok::<(), Refusal>(())
    /// ```
    pub fn write(&mut self, pass: PassId, space: SpaceId, addr: u64, bytes: &[u8]) -> Result<Access, Refusal> {
        // SAFETY: the handle and the slices are borrowed for the call, and each pointer comes with the length of its slice.
        let answer = unsafe { sys::vb_write(&mut self.handle, pass.0, space.0, addr, bytes.as_ptr(), bytes.len()) };
        Ok(access(accepted(answer)?))
    }

    /// Loads bytes into a region that has bytes, ROM among them.
    ///
    /// ```
    /// # use vobrekan::*;
    /// # let mut machine = Machine::new(1 << 16)?;
    /// # let (board, ram) = (machine.region(Kind::Container, WHOLE)?, machine.region(Kind::Ram, 0x2000)?);
    /// # machine.space(SpaceId(0), board)?;
    /// # machine.add(board, 0, ram, 0)?;
    /// let rom = machine.region(Kind::Rom, 0x1000)?;
    /// machine.add(board, 0x1_0000, rom, 0)?;
    /// machine.load(rom, 0x10, &[0xea])?;
    /// let mut byte = [0];
    /// machine.read(PassId(0), SpaceId(0), 0x1_0010, &mut byte)?;
    /// assert_eq!(byte, [0xea]);
    /// # Ok::<(), Refusal>(())
    /// ```
    pub fn load(&mut self, region: RegionId, offset: u64, bytes: &[u8]) -> Result<(), Refusal> {
        // SAFETY: the handle and the slices are borrowed for the call, and each pointer comes with the length of its slice.
        accepted(unsafe { sys::vb_load(&mut self.handle, region.0, offset, bytes.as_ptr(), bytes.len()) })?;
        Ok(())
    }

    /// Takes a notifier, 0 to 63: whether a write has set it since it was last taken.
    pub fn notified(&mut self, number: u32) -> Result<bool, Refusal> {
        // SAFETY: the handle is borrowed for the call; any numbers may be given.
        Ok(accepted(unsafe { sys::vb_notified(&mut self.handle, number) })?.value != 0)
    }
}

fn access(answer: sys::vb_answer) -> Access {
    Access {
        error: answer.what & sys::VB_ACCESS_ERROR != 0,
        decode: answer.what & sys::VB_ACCESS_DECODE != 0,
        generation: answer.value,
    }
}

/// A transaction that is open. It is committed where it is dropped. Where that is refused, as where memory runs out, it stays open in the machine
/// until [`Machine::close_transactions`], or the end of a later transaction, closes it.
///
/// ```
/// # use vobrekan::*;
/// # let mut machine = Machine::new(1 << 16)?;
/// # let (board, ram) = (machine.region(Kind::Container, WHOLE)?, machine.region(Kind::Ram, 0x2000)?);
/// # machine.space(SpaceId(0), board)?;
/// # machine.add(board, 0, ram, 0)?;
/// {
///     let mut change = machine.transaction()?;
///     change.enable(ram, false)?;
/// } // committed here
/// assert!(!machine.find(SpaceId(0), 0)?.is_there);
/// # Ok::<(), Refusal>(())
/// ```
#[derive(Debug)]
pub struct Transaction<'a> {
    machine: &'a mut Machine,
    is_open: bool,
}

impl Transaction<'_> {
    /// Closes the transaction, and answers the number of the generation that the outermost one publishes. Where it is refused, the transaction stays
    /// open: [`Machine::close_transactions`] tries it once more.
    pub fn commit(mut self) -> Result<Option<u64>, Refusal> {
        self.end()
    }

    /// Closes it, with those before it that were left open.
    fn end(&mut self) -> Result<Option<u64>, Refusal> {
        self.is_open = false;
        self.machine.left_open += 1;
        self.machine.close_transactions()
    }
}

impl Drop for Transaction<'_> {
    fn drop(&mut self) {
        if self.is_open {
            // A refusal is told by whoever closes it later.
            let _ = self.end();
        }
    }
}

impl Deref for Transaction<'_> {
    type Target = Machine;

    fn deref(&self) -> &Machine {
        self.machine
    }
}

impl DerefMut for Transaction<'_> {
    fn deref_mut(&mut self) -> &mut Machine {
        self.machine
    }
}
