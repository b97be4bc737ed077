//! A machine that virtual CPUs share: its desk, and the virtual CPUs, each on a thread of its own.
use crate::bus::planned;
use crate::refusal::accepted;
use crate::{Access, Client, FlatRange, Found, Ioevent, Kind, ListenerCall, ListenerId, Pages, Perm, Reached, Refusal, RegionId, SpaceId, Way, access, published, told};
use std::ptr::null_mut;
use vobrekan_sys as sys;

/// What is asked of a desk: each is the call of that name of a [`Machine`](crate::Machine).
///
/// ```
/// # use vobrekan::*;
/// # let mut desk = Desk::new(1 << 16)?;
/// # let (board, ram) = (desk.region(Kind::Container, WHOLE)?, desk.region(Kind::Ram, 0x2000)?);
/// # desk.ask(Order::Space(SpaceId(0), board))?;
/// # desk.ask(Order::Add(board, 0, ram, 0))?;
/// assert_eq!(desk.ask(Order::Begin)?, None);
/// desk.ask(Order::Move(ram, 0x4000))?;
/// assert_eq!(desk.ask(Order::Commit)?, Some(3));
/// assert_eq!(desk.ask(Order::Commit), Err(Refusal::NoTransaction));
/// # Ok::<(), Refusal>(())
/// ```
#[non_exhaustive]
#[derive(Clone, Copy, Debug, PartialEq, Eq)]
pub enum Order {
    /// Opens a transaction.
    Begin,
    /// Closes a transaction; the outermost one publishes.
    Commit,
    /// A listener joins a space, with this priority.
    Listen(ListenerId, SpaceId, i32),
    /// A listener leaves its space.
    Unlisten(ListenerId),
    /// Makes an address space with this root.
    Space(SpaceId, RegionId),
    /// Places a region: a container, an offset in it, the region, and its priority.
    Add(RegionId, u64, RegionId, i32),
    /// Takes the second region out of its container, the first.
    Del(RegionId, RegionId),
    /// Moves a region to this offset in its container.
    Move(RegionId, u64),
    /// Gives a region another size.
    Resize(RegionId, u64),
    /// Moves the window of an alias to this offset in its target.
    Retarget(RegionId, u64),
    /// Switches a region on or off.
    Enable(RegionId, bool),
    /// Switches whether what is found through the region is read-only.
    Readonly(RegionId, bool),
    /// Switches whether what is found through the region is non-volatile.
    Nonvolatile(RegionId, bool),
    /// Switches whether ranges that are found through the region end where the path to their leaf changes.
    Unmergeable(RegionId, bool),
    /// Switches the mode of a ROM device.
    Romd(RegionId, bool),
    /// Switches the logging of a region for one client.
    Log(RegionId, Client, bool),
    /// Switches global logging.
    Global(bool),
    /// Adds a translation: an IOMMU region, the offset and the size of a page, the space and the address where it goes on, and what it lets through.
    Map(RegionId, u64, u64, SpaceId, u64, Perm),
    /// Takes out the translation at this offset.
    Unmap(RegionId, u64),
    /// Gives a device an ioeventfd.
    Event(RegionId, Ioevent),
    /// Takes an ioeventfd away.
    Unevent(RegionId, Ioevent),
    /// Drops a region that nothing uses.
    Drop(RegionId),
}

/// The numbers of an order.
fn numbers(order: Order) -> sys::vb_order {
    let none = sys::vb_order::default();
    let setting = |what, region: RegionId, on| sys::vb_order { what, region: region.0, on, ..none };
    let sized = |what, region: RegionId, size| sys::vb_order { what, region: region.0, size, ..none };
    let placed = |what, region: RegionId, offset| sys::vb_order { what, region: region.0, offset, ..none };
    match order {
        Order::Begin => sys::vb_order { what: sys::VB_DO_BEGIN, ..none },
        Order::Commit => sys::vb_order { what: sys::VB_DO_COMMIT, ..none },
        Order::Listen(listener, space, priority) => {
            sys::vb_order { what: sys::VB_DO_LISTEN, listener: listener.0, space: space.0, priority, ..none }
        }
        Order::Unlisten(listener) => sys::vb_order { what: sys::VB_DO_UNLISTEN, listener: listener.0, ..none },
        Order::Space(space, root) => sys::vb_order { what: sys::VB_DO_SPACE, space: space.0, other: root.0, ..none },
        Order::Add(region, offset, child, priority) => {
            sys::vb_order { what: sys::VB_DO_ADD, region: region.0, offset, other: child.0, priority, ..none }
        }
        Order::Del(region, child) => sys::vb_order { what: sys::VB_DO_DEL, region: region.0, other: child.0, ..none },
        Order::Move(region, offset) => placed(sys::VB_DO_MOVE, region, offset),
        Order::Resize(region, size) => sized(sys::VB_DO_RESIZE, region, size),
        Order::Retarget(region, offset) => placed(sys::VB_DO_RETARGET, region, offset),
        Order::Enable(region, on) => setting(sys::VB_DO_ENABLE, region, on),
        Order::Readonly(region, on) => setting(sys::VB_DO_READONLY, region, on),
        Order::Nonvolatile(region, on) => setting(sys::VB_DO_NONVOLATILE, region, on),
        Order::Unmergeable(region, on) => setting(sys::VB_DO_UNMERGEABLE, region, on),
        Order::Romd(region, on) => setting(sys::VB_DO_ROMD, region, on),
        Order::Log(region, client, on) => sys::vb_order { client: client as u32, ..setting(sys::VB_DO_LOG, region, on) },
        Order::Global(on) => sys::vb_order { what: sys::VB_DO_GLOBAL, on, ..none },
        Order::Map(region, offset, size, space, translated, perm) => {
            sys::vb_order { what: sys::VB_DO_MAP, region: region.0, offset, size, space: space.0, translated, perm: perm as u32, ..none }
        }
        Order::Unmap(region, offset) => placed(sys::VB_DO_UNMAP, region, offset),
        Order::Event(region, event) => sys::vb_order { what: sys::VB_DO_EVENT, region: region.0, event, ..none },
        Order::Unevent(region, event) => sys::vb_order { what: sys::VB_DO_UNEVENT, region: region.0, event, ..none },
        Order::Drop(region) => sys::vb_order { what: sys::VB_DO_DROP, region: region.0, ..none },
    }
}

/// The numbers of an order for a region of a kind.
fn region_numbers(kind: Kind, size: u64) -> sys::vb_order {
    let made = |kind| sys::vb_order { what: sys::VB_DO_REGION, kind, size, ..sys::vb_order::default() };
    match kind {
        Kind::Container => made(sys::VB_KIND_CONTAINER),
        Kind::Ram => made(sys::VB_KIND_RAM),
        Kind::Rom => made(sys::VB_KIND_ROM),
        Kind::RomDevice(device) => sys::vb_order { device, ..made(sys::VB_KIND_ROM_DEVICE) },
        Kind::Io(device) => sys::vb_order { device, ..made(sys::VB_KIND_IO) },
        Kind::Iommu => made(sys::VB_KIND_IOMMU),
        Kind::Alias(target, offset) => sys::vb_order { other: target.0, offset, ..made(sys::VB_KIND_ALIAS) },
        Kind::Reserve => made(sys::VB_KIND_RESERVE),
        Kind::Host => made(sys::VB_KIND_HOST),
    }
}

/// The desk of a machine that virtual CPUs share: the map is changed here, beside what they do.
///
/// ```
/// use std::thread;
/// use vobrekan::*;
///
/// let mut desk = Desk::new(1 << 16)?;
/// let (board, ram) = (desk.region(Kind::Container, WHOLE)?, desk.region(Kind::Ram, 0x2000)?);
/// desk.ask(Order::Space(SpaceId(0), board))?;
/// desk.ask(Order::Add(board, 0, ram, 0))?;
/// let mut cpu = desk.cpu()?;
/// let working = thread::spawn(move || cpu.write8(SpaceId(0), 0x100, 42)); // beside the desk
/// let window = desk.region(Kind::Alias(ram, 0), 0x1000)?;
/// desk.ask(Order::Add(board, 0x10_0000, window, 0))?;
/// assert!(!working.join().unwrap()?.error);
/// # Ok::<(), Refusal>(())
/// ```
///
/// It may go to another thread, and is not shared between threads.
///
/// ```
/// fn goes_to_a_thread<T: Send>() {}
/// goes_to_a_thread::<vobrekan::Desk>();
/// ```
///
/// ```compile_fail,E0277
/// fn is_shared<T: Sync>() {}
/// is_shared::<vobrekan::Desk>();
/// ```
#[derive(Debug)]
pub struct Desk {
    handle: sys::vb_desk,
    /// How many regions were dropped and are not released yet, at most.
    dropped: usize,
    /// How many calls of listeners are forgotten.
    forgotten: usize,
}

// SAFETY: the library proves that the handle may go to another thread. A call takes `&mut self`, so one works on it at a time.
unsafe impl Send for Desk {}

impl Drop for Desk {
    fn drop(&mut self) {
        // SAFETY: the handle is borrowed for the call; any numbers may be given.
        unsafe { sys::vb_desk_free(&mut self.handle) }
    }
}

impl Desk {
    /// A machine over a pool of this many words of 8 bytes, at most 2^26, and its desk.
    pub fn new(words: usize) -> Result<Desk, Refusal> {
        let mut desk = Desk { handle: sys::vb_desk { at: null_mut() }, dropped: 0, forgotten: 0 };
        // SAFETY: the handle is borrowed for the call, and has nothing yet; any number may be given.
        accepted(unsafe { sys::vb_desk_new(&mut desk.handle, words) })?;
        Ok(desk)
    }

    /// A virtual CPU, which has seen all that the desk has done. There are 16.
    pub fn cpu(&mut self) -> Result<Cpu, Refusal> {
        let mut cpu = Cpu(sys::vb_cpu { at: null_mut() });
        // SAFETY: both handles are borrowed for the call, and that of the virtual CPU has nothing yet.
        accepted(unsafe { sys::vb_desk_cpu(&mut self.handle, &mut cpu.0) })?;
        Ok(cpu)
    }

    /// Makes a region. It is in no container.
    pub fn region(&mut self, kind: Kind, size: u64) -> Result<RegionId, Refusal> {
        // SAFETY: the handle and the value beside it are borrowed for the call; any numbers may be given.
        let answer = accepted(unsafe { sys::vb_desk_ask(&mut self.handle, &region_numbers(kind, size)) })?;
        Ok(RegionId(answer.value as u32))
    }

    /// Asks for something, and answers the number of the generation that was published, if one was.
    ///
    /// ```
    /// # use vobrekan::*;
    /// # let mut desk = Desk::new(1 << 16)?;
    /// # let (board, ram) = (desk.region(Kind::Container, WHOLE)?, desk.region(Kind::Ram, 0x2000)?);
    /// # desk.ask(Order::Space(SpaceId(0), board))?;
    /// # desk.ask(Order::Add(board, 0, ram, 0))?;
    /// assert_eq!(desk.ask(Order::Move(ram, 0x8000))?, Some(3));
    /// assert_eq!(desk.find(SpaceId(0), 0x8000)?.region, ram.0);
    /// # Ok::<(), Refusal>(())
    /// ```
    pub fn ask(&mut self, order: Order) -> Result<Option<u64>, Refusal> {
        // SAFETY: the handle and the value beside it are borrowed for the call; any numbers may be given.
        let answer = accepted(unsafe { sys::vb_desk_ask(&mut self.handle, &numbers(order)) })?;
        if let Order::Drop(_) = order {
            self.dropped += 1;
        }
        Ok(published(answer))
    }

    /// Releases the dropped regions that no generation in use names, and answers them, ascending.
    ///
    /// ```
    /// # use vobrekan::*;
    /// # let mut desk = Desk::new(1 << 16)?;
    /// # let (board, ram) = (desk.region(Kind::Container, WHOLE)?, desk.region(Kind::Ram, 0x2000)?);
    /// # desk.ask(Order::Space(SpaceId(0), board))?;
    /// # desk.ask(Order::Add(board, 0, ram, 0))?;
    /// let mut cpu = desk.cpu()?;
    /// cpu.enter()?;
    /// desk.ask(Order::Del(board, ram))?;
    /// desk.ask(Order::Drop(ram))?;
    /// assert_eq!(desk.reap()?, []); // the virtual CPU may still use it
    /// cpu.leave()?;
    /// assert_eq!(desk.reap()?, [ram]);
    /// # Ok::<(), Refusal>(())
    /// ```
    pub fn reap(&mut self) -> Result<Vec<RegionId>, Refusal> {
        let mut out = vec![0; self.dropped];
        // SAFETY: the handle and the slices are borrowed for the call, and each pointer comes with the length of its slice.
        let count = accepted(unsafe { sys::vb_desk_reap(&mut self.handle, out.as_mut_ptr(), out.len()) })?.value as usize;
        out.truncate(count);
        self.dropped -= out.len();
        Ok(out.into_iter().map(RegionId).collect())
    }

    /// Takes the marks of a region for one client: the pages that were written since they were last taken.
    pub fn harvest(&mut self, region: RegionId, client: Client) -> Result<Pages, Refusal> {
        // SAFETY: the handle and the slices are borrowed for the call, and each pointer comes with the length of its slice.
        Pages::harvested(region, |out| unsafe { sys::vb_desk_harvest(&mut self.handle, region.0, client as u32, out.as_mut_ptr(), out.len()) })
    }

    /// Takes a notifier, 0 to 63: whether a write has set it since it was last taken.
    pub fn notified(&mut self, number: u32) -> Result<bool, Refusal> {
        // SAFETY: the handle is borrowed for the call; any numbers may be given.
        Ok(accepted(unsafe { sys::vb_desk_notified(&mut self.handle, number) })?.value != 0)
    }

    /// What an address of a space leads to in the current generation, and how far it goes on alike.
    pub fn find(&mut self, space: SpaceId, addr: u64) -> Result<Found, Refusal> {
        let mut found = Found::default();
        // SAFETY: the handle and the value beside it are borrowed for the call; any numbers may be given.
        accepted(unsafe { sys::vb_desk_find(&mut self.handle, space.0, addr, &mut found) })?;
        Ok(found)
    }

    /// The ranges of the current view of a space, by ascending address.
    ///
    /// ```
    /// # use vobrekan::*;
    /// # let mut desk = Desk::new(1 << 16)?;
    /// # let (board, ram) = (desk.region(Kind::Container, WHOLE)?, desk.region(Kind::Ram, 0x2000)?);
    /// # desk.ask(Order::Space(SpaceId(0), board))?;
    /// # desk.ask(Order::Add(board, 0, ram, 0))?;
    /// desk.ask(Order::Move(ram, 0x4000))?;
    /// assert_eq!(desk.view(SpaceId(0))?[0].start, 0x4000);
    /// # Ok::<(), Refusal>(())
    /// ```
    pub fn view(&mut self, space: SpaceId) -> Result<Vec<FlatRange>, Refusal> {
        let mut ranges = Vec::new();
        loop {
            let mut range = FlatRange::default();
            // SAFETY: the handle and the value beside it are borrowed for the call; any numbers may be given.
            let count = accepted(unsafe { sys::vb_desk_range(&mut self.handle, space.0, ranges.len(), &mut range) })?.value;
            if ranges.len() as u64 >= count {
                return Ok(ranges);
            }
            ranges.push(range);
        }
    }

    /// The calls that listeners got from the index `from` on, counted from the first that was ever made: a caller that goes on from
    /// where it came to misses none. Refused where the call `from` is forgotten.
    pub fn told(&mut self, from: usize) -> Result<Vec<ListenerCall>, Refusal> {
        // SAFETY: the handle and the value beside it are borrowed for the call; any numbers may be given.
        told(from, self.forgotten, |index, call| unsafe { sys::vb_desk_delivery(&mut self.handle, index, call) })
    }

    /// Forgets the calls of listeners before the index `until`, counted from the first that was ever made. The others keep their
    /// indices, and the listeners stay. A desk that works for long keeps all that listeners were told until it is forgotten here.
    pub fn forget(&mut self, until: usize) -> Result<(), Refusal> {
        let count = until.saturating_sub(self.forgotten);
        // SAFETY: the handle is borrowed for the call; any numbers may be given.
        self.forgotten += accepted(unsafe { sys::vb_desk_forget(&mut self.handle, count) })?.value as usize;
        Ok(())
    }
}

/// What was written of some bytes.
///
/// ```
/// # use vobrekan::*;
/// # let mut desk = Desk::new(1 << 16)?;
/// # let (board, ram) = (desk.region(Kind::Container, WHOLE)?, desk.region(Kind::Ram, 0x2000)?);
/// # desk.ask(Order::Space(SpaceId(0), board))?;
/// # desk.ask(Order::Add(board, 0, ram, 0))?;
/// let written = desk.cpu()?.write(SpaceId(0), 0x101, &[1, 2, 3], 64)?; // a part of a word, tried at most 64 times
/// assert_eq!((written.count, written.begun), (3, false));
/// # Ok::<(), Refusal>(())
/// ```
#[derive(Clone, Copy, Debug, PartialEq, Eq)]
pub struct Written {
    /// How many of the first bytes are written.
    pub count: usize,
    /// How their write ended.
    pub access: Access,
    /// Where not all are written: a device, whose access takes several callbacks, has taken the first of those that come next.
    pub begun: bool,
}

/// A virtual CPU. It never waits, and may outlive its desk.
///
/// ```
/// # use vobrekan::*;
/// # let mut desk = Desk::new(1 << 16)?;
/// # let (board, ram) = (desk.region(Kind::Container, WHOLE)?, desk.region(Kind::Ram, 0x2000)?);
/// # desk.ask(Order::Space(SpaceId(0), board))?;
/// # desk.ask(Order::Add(board, 0, ram, 0))?;
/// let mut cpu = desk.cpu()?;
/// let entered = cpu.enter()?;
/// desk.ask(Order::Enable(ram, false))?; // the virtual CPU still sees the map that it entered
/// let access = cpu.read(SpaceId(0), 0, &mut [0; 4])?;
/// assert_eq!((access.generation, access.decode), (entered, false));
/// cpu.leave()?;
/// assert!(cpu.read(SpaceId(0), 0, &mut [0; 4])?.decode);
/// # Ok::<(), Refusal>(())
/// ```
///
/// It may go to another thread, and is not shared between threads.
///
/// ```
/// fn goes_to_a_thread<T: Send>() {}
/// goes_to_a_thread::<vobrekan::Cpu>();
/// ```
///
/// ```compile_fail,E0277
/// fn is_shared<T: Sync>() {}
/// is_shared::<vobrekan::Cpu>();
/// ```
#[derive(Debug)]
pub struct Cpu(sys::vb_cpu);

// SAFETY: as of a desk.
unsafe impl Send for Cpu {}

impl Drop for Cpu {
    fn drop(&mut self) {
        // SAFETY: the handle is borrowed for the call; any numbers may be given.
        unsafe { sys::vb_cpu_free(&mut self.0) }
    }
}

impl Cpu {
    /// Enters the current generation, and answers its number: accesses go by it until the virtual CPU leaves it or enters anew.
    pub fn enter(&mut self) -> Result<u64, Refusal> {
        // SAFETY: the handle is borrowed for the call; any numbers may be given.
        Ok(accepted(unsafe { sys::vb_cpu_enter(&mut self.0) })?.other)
    }

    /// Leaves the generation that it is entered in; where it is in none, it does nothing.
    pub fn leave(&mut self) -> Result<(), Refusal> {
        // SAFETY: the handle is borrowed for the call; any numbers may be given.
        accepted(unsafe { sys::vb_cpu_leave(&mut self.0) })?;
        Ok(())
    }

    /// Reads bytes of a space, as many as there is room for.
    pub fn read(&mut self, space: SpaceId, addr: u64, out: &mut [u8]) -> Result<Access, Refusal> {
        // SAFETY: the handle and the slices are borrowed for the call, and each pointer comes with the length of its slice.
        Ok(access(accepted(unsafe { sys::vb_cpu_read(&mut self.0, space.0, addr, out.as_mut_ptr(), out.len()) })?))
    }

    /// Writes bytes of a space. Each part of a word is tried at most `tries` times: where another changed the word each time, only the bytes
    /// before it are written, and a caller that wants all of them goes on there.
    pub fn write(&mut self, space: SpaceId, addr: u64, bytes: &[u8], tries: u32) -> Result<Written, Refusal> {
        // SAFETY: the handle and the slices are borrowed for the call, and each pointer comes with the length of its slice.
        let answer = unsafe { sys::vb_cpu_write(&mut self.0, space.0, addr, bytes.as_ptr(), bytes.len(), tries) };
        if answer.code != sys::VB_CONTENDED {
            return Ok(Written { count: bytes.len(), access: access(accepted(answer)?), begun: false });
        }
        let first = sys::vb_answer { value: answer.other, ..answer };
        Ok(Written { count: answer.value as usize, access: access(first), begun: answer.what & sys::VB_ACCESS_BEGUN != 0 })
    }

    /// Writes the eight bytes of a number, the lowest first. Where it would replace only a part of some word, it is refused.
    ///
    /// ```
    /// # use vobrekan::*;
    /// # let mut desk = Desk::new(1 << 16)?;
    /// # let (board, ram) = (desk.region(Kind::Container, WHOLE)?, desk.region(Kind::Ram, 0x2000)?);
    /// # desk.ask(Order::Space(SpaceId(0), board))?;
    /// # desk.ask(Order::Add(board, 0, ram, 0))?;
    /// let mut cpu = desk.cpu()?;
    /// cpu.write8(SpaceId(0), 0x100, 7)?;
    /// assert!(matches!(cpu.write8(SpaceId(0), 0x104, 7), Err(Refusal::NotWhole(_))));
    /// # Ok::<(), Refusal>(())
    /// ```
    pub fn write8(&mut self, space: SpaceId, addr: u64, value: u64) -> Result<Access, Refusal> {
        // SAFETY: the handle is borrowed for the call; any numbers may be given.
        Ok(access(accepted(unsafe { sys::vb_cpu_write8(&mut self.0, space.0, addr, value) })?))
    }

    /// What a read of `len` bytes of a space reaches in the generation that it is entered in, in order: what a monitor asks at an exit of its guest,
    /// without a lock. No region that is named is released before the virtual CPU leaves. Refused where it is entered in none.
    ///
    /// ```
    /// # use vobrekan::*;
    /// # let mut desk = Desk::new(1 << 16)?;
    /// # let (board, ram) = (desk.region(Kind::Container, WHOLE)?, desk.region(Kind::Host, 0x2000)?);
    /// # desk.ask(Order::Space(SpaceId(0), board))?;
    /// # desk.ask(Order::Add(board, 0, ram, 0))?;
    /// let mut cpu = desk.cpu()?;
    /// cpu.enter()?;
    /// desk.ask(Order::Move(ram, 0x8000))?; // the virtual CPU still asks the map that it entered
    /// let plan = cpu.plan_read(Way::Qemu, SpaceId(0), 0x1ffc, 8)?;
    /// assert_eq!((plan[0].region, plan[0].offset, plan[0].len), (ram.0, 0x1ffc, 4)); // after these four bytes nothing answers
    /// # Ok::<(), Refusal>(())
    /// ```
    pub fn plan_read(&mut self, way: Way, space: SpaceId, addr: u64, len: usize) -> Result<Vec<Reached>, Refusal> {
        // SAFETY: the handle and the slices are borrowed for the call, and each pointer comes with the length of its slice.
        Ok(planned(|out| unsafe { sys::vb_cpu_plan_read(&mut self.0, way as u32, space.0, addr, len, out.as_mut_ptr(), out.len()) })?.0)
    }

    /// What a write of bytes to a space reaches in the generation that it is entered in, as `plan_read` tells it of a read.
    pub fn plan_write(&mut self, way: Way, space: SpaceId, addr: u64, bytes: &[u8]) -> Result<Vec<Reached>, Refusal> {
        // SAFETY: the handle and the slices are borrowed for the call, and each pointer comes with the length of its slice.
        Ok(planned(|out| unsafe {
            sys::vb_cpu_plan_write(&mut self.0, way as u32, space.0, addr, bytes.as_ptr(), bytes.len(), out.as_mut_ptr(), out.len())
        })?
        .0)
    }

    /// What an address of a space leads to in the generation that it is entered in, and how far it goes on alike. Refused where it is entered in none.
    pub fn find(&mut self, space: SpaceId, addr: u64) -> Result<Found, Refusal> {
        let mut found = Found::default();
        // SAFETY: the handle and the value beside it are borrowed for the call; any numbers may be given.
        accepted(unsafe { sys::vb_cpu_find(&mut self.0, space.0, addr, &mut found) })?;
        Ok(found)
    }

    /// The regions that a search passes on the way to the one that answers an address, in the generation that it is entered in.
    pub fn path(&mut self, space: SpaceId, addr: u64) -> Result<Vec<RegionId>, Refusal> {
        let mut out = [0; 32];
        // SAFETY: the handle and the slices are borrowed for the call, and each pointer comes with the length of its slice.
        let count = accepted(unsafe { sys::vb_cpu_path(&mut self.0, space.0, addr, out.as_mut_ptr(), out.len()) })?.value as usize;
        Ok(out[..count].iter().copied().map(RegionId).collect())
    }

    /// The ranges of the view of a space in the generation that it is entered in, by ascending address.
    pub fn view(&mut self, space: SpaceId) -> Result<Vec<FlatRange>, Refusal> {
        let mut ranges = Vec::new();
        loop {
            let mut range = FlatRange::default();
            // SAFETY: the handle and the value beside it are borrowed for the call; any numbers may be given.
            let count = accepted(unsafe { sys::vb_cpu_range(&mut self.0, space.0, ranges.len(), &mut range) })?.value;
            if ranges.len() as u64 >= count {
                return Ok(ranges);
            }
            ranges.push(range);
        }
    }
}
