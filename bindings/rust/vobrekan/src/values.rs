//! What calls take and answer: numbers of things, kinds, and how accesses end.
use vobrekan_sys as sys;

/// A memory region, by its number.
///
/// ```
/// use vobrekan::*;
///
/// let mut machine = Machine::new(1 << 16)?;
/// assert_eq!(machine.region(Kind::Container, WHOLE)?, RegionId(0));
/// assert_eq!(machine.region(Kind::Ram, 0x1000)?, RegionId(1));
/// # Ok::<(), Refusal>(())
/// ```
#[derive(Clone, Copy, Debug, PartialEq, Eq, PartialOrd, Ord, Hash)]
pub struct RegionId(pub u32);

/// An address space, by a number of the caller's.
///
/// ```
/// use vobrekan::*;
///
/// let mut machine = Machine::new(1 << 16)?;
/// let board = machine.region(Kind::Container, WHOLE)?;
/// assert_eq!(machine.space(SpaceId(7), board)?, Some(1));
/// assert_eq!(machine.space(SpaceId(7), board), Err(Refusal::NameTaken(What::Space(SpaceId(7)))));
/// # Ok::<(), Refusal>(())
/// ```
#[derive(Clone, Copy, Debug, PartialEq, Eq, PartialOrd, Ord, Hash)]
pub struct SpaceId(pub u32);

/// A listener, by a number of the caller's.
///
/// ```
/// # use vobrekan::*;
/// # let mut machine = Machine::new(1 << 16)?;
/// # let (board, ram) = (machine.region(Kind::Container, WHOLE)?, machine.region(Kind::Ram, 0x2000)?);
/// # machine.space(SpaceId(0), board)?;
/// # machine.add(board, 0, ram, 0)?;
/// machine.listen(ListenerId(3), SpaceId(0), 0)?;
/// assert!(machine.told(0)?.iter().all(|call| call.listener == 3));
/// # Ok::<(), Refusal>(())
/// ```
#[derive(Clone, Copy, Debug, PartialEq, Eq, PartialOrd, Ord, Hash)]
pub struct ListenerId(pub u32);

/// A pass, 0 to 15: what one virtual CPU reads and writes with.
///
/// ```
/// # use vobrekan::*;
/// # let mut machine = Machine::new(1 << 16)?;
/// # let (board, ram) = (machine.region(Kind::Container, WHOLE)?, machine.region(Kind::Ram, 0x2000)?);
/// # machine.space(SpaceId(0), board)?;
/// # machine.add(board, 0, ram, 0)?;
/// let access = machine.write(PassId(15), SpaceId(0), 0, &[1])?;
/// assert!(!access.error && !access.decode);
/// # Ok::<(), Refusal>(())
/// ```
#[derive(Clone, Copy, Debug, PartialEq, Eq, PartialOrd, Ord, Hash)]
pub struct PassId(pub u32);

/// The size that stands for 2^64 bytes.
///
/// ```
/// use vobrekan::*;
///
/// let mut machine = Machine::new(1 << 16)?;
/// let board = machine.region(Kind::Container, WHOLE)?;
/// machine.space(SpaceId(0), board)?;
/// assert_eq!(machine.find(SpaceId(0), 0)?.last, u64::MAX);
/// # Ok::<(), Refusal>(())
/// ```
pub const WHOLE: u64 = u64::MAX;

/// A device: its kind, its registers and its access sizes.
///
/// ```
/// use vobrekan::*;
///
/// // One register that takes accesses of 1 to 4 bytes.
/// let latch = Device { kind: sys::VB_DEVICE_LATCH, regs: 1, valid_min: 1, valid_max: 4, impl_min: 1, impl_max: 4, ..Device::default() };
/// let mut machine = Machine::new(1 << 10)?;
/// let uart = machine.region(Kind::Io(latch), 0x100)?;
/// # Ok::<(), Refusal>(())
/// ```
pub use sys::vb_device as Device;
/// A range of a view.
///
/// ```
/// # use vobrekan::*;
/// # let mut machine = Machine::new(1 << 16)?;
/// # let (board, ram) = (machine.region(Kind::Container, WHOLE)?, machine.region(Kind::Ram, 0x2000)?);
/// # machine.space(SpaceId(0), board)?;
/// # machine.add(board, 0, ram, 0)?;
/// let range: FlatRange = machine.view(SpaceId(0))?[0];
/// assert_eq!((range.start, range.last, range.region, range.offset), (0, 0x1fff, ram.0, 0));
/// # Ok::<(), Refusal>(())
/// ```
pub use sys::vb_flat_range as FlatRange;
/// What an address leads to.
///
/// ```
/// # use vobrekan::*;
/// # let mut machine = Machine::new(1 << 16)?;
/// # let (board, ram) = (machine.region(Kind::Container, WHOLE)?, machine.region(Kind::Ram, 0x2000)?);
/// # machine.space(SpaceId(0), board)?;
/// # machine.add(board, 0, ram, 0)?;
/// let found: Found = machine.find(SpaceId(0), 0x10)?;
/// assert_eq!((found.region, found.offset, found.last), (ram.0, 0x10, 0x1fff));
/// assert!(!machine.find(SpaceId(0), 0x2000)?.is_there);
/// # Ok::<(), Refusal>(())
/// ```
pub use sys::vb_found as Found;
/// An ioeventfd.
///
/// ```
/// # use vobrekan::*;
/// # let mut machine = Machine::new(1 << 16)?;
/// # let (board, ram) = (machine.region(Kind::Container, WHOLE)?, machine.region(Kind::Ram, 0x2000)?);
/// # machine.space(SpaceId(0), board)?;
/// # machine.add(board, 0, ram, 0)?;
/// let device = Device { regs: 1, valid_min: 1, valid_max: 4, impl_min: 1, impl_max: 4, ..Device::default() };
/// let doorbell = machine.region(Kind::Io(device), 0x100)?;
/// machine.add(board, 0x1_0000, doorbell, 0)?;
/// let event = Ioevent { offset: 0x10, size: 4, number: 5, ..Ioevent::default() }; // any write of 4 bytes
/// machine.event(doorbell, &event)?;
/// machine.write(PassId(0), SpaceId(0), 0x1_0010, &[1, 0, 0, 0])?;
/// assert!(machine.notified(5)?);
/// # Ok::<(), Refusal>(())
/// ```
pub use sys::vb_ioevent as Ioevent;
/// A call of a listener.
///
/// ```
/// # use vobrekan::*;
/// # let mut machine = Machine::new(1 << 16)?;
/// # let (board, ram) = (machine.region(Kind::Container, WHOLE)?, machine.region(Kind::Ram, 0x2000)?);
/// # machine.space(SpaceId(0), board)?;
/// # machine.add(board, 0, ram, 0)?;
/// machine.listen(ListenerId(0), SpaceId(0), 0)?;
/// let calls: Vec<ListenerCall> = machine.told(0)?;
/// assert_eq!(calls.iter().map(|call| call.what).collect::<Vec<_>>(), [sys::VB_TOLD_BEGIN, sys::VB_TOLD_ADD, sys::VB_TOLD_COMMIT]);
/// assert_eq!(calls[1].range.last, 0x1fff);
/// # Ok::<(), Refusal>(())
/// ```
pub use sys::vb_listener_call as ListenerCall;
/// One thing that an access reaches.
///
/// ```
/// # use vobrekan::*;
/// # let mut machine = Machine::new(1 << 16)?;
/// # let (board, ram) = (machine.region(Kind::Container, WHOLE)?, machine.region(Kind::Ram, 0x2000)?);
/// # machine.space(SpaceId(0), board)?;
/// # machine.add(board, 0, ram, 0)?;
/// let (plan, _) = machine.plan_read(Way::Chunks, SpaceId(0), 0x1ffe, 4)?;
/// assert_eq!(plan.iter().map(|it| (it.what, it.len)).collect::<Vec<_>>(), [(sys::VB_REACHED_MEMORY, 2), (sys::VB_REACHED_NOTHING, 2)]);
/// # Ok::<(), Refusal>(())
/// ```
pub use sys::vb_reached as Reached;

/// What a region is.
///
/// ```
/// use vobrekan::*;
///
/// let mut machine = Machine::new(1 << 16)?;
/// let ram = machine.region(Kind::Ram, 0x4000)?;
/// let window = machine.region(Kind::Alias(ram, 0x1000), 0x1000)?; // the second page of it
/// let bus = machine.region(Kind::Iommu, 0x1_0000)?;
/// # Ok::<(), Refusal>(())
/// ```
#[non_exhaustive]
#[derive(Clone, Copy, Debug, PartialEq, Eq)]
pub enum Kind {
    /// Only groups its children.
    Container,
    /// Memory whose bytes the machine has.
    Ram,
    /// Memory that accesses cannot write; its bytes are loaded.
    Rom,
    /// A ROM in whose mode it is read as memory, and else as this device.
    RomDevice(Device),
    /// A device.
    Io(Device),
    /// A translation to another address space.
    Iommu,
    /// A window on another region, from this offset in it on.
    Alias(RegionId, u64),
    /// An address range that is claimed and has no callbacks.
    Reserve,
    /// RAM whose bytes the caller keeps.
    Host,
}

/// By which rule the plan of an access is made.
///
/// ```
/// # use vobrekan::*;
/// # let mut machine = Machine::new(1 << 16)?;
/// # let (board, ram) = (machine.region(Kind::Container, WHOLE)?, machine.region(Kind::Ram, 0x2000)?);
/// # machine.space(SpaceId(0), board)?;
/// # machine.add(board, 0, ram, 0)?;
/// let device = Device { regs: 1, valid_min: 1, valid_max: 4, impl_min: 4, impl_max: 4, ..Device::default() };
/// let port = machine.region(Kind::Io(device), 2)?;
/// machine.add(board, 0xcf8, port, 1)?;
/// // The device is two bytes long: in QEMU's way it takes the whole access all the same.
/// let (cut, _) = machine.plan_read(Way::Chunks, SpaceId(0), 0xcf8, 4)?;
/// let (whole, _) = machine.plan_read(Way::Qemu, SpaceId(0), 0xcf8, 4)?;
/// assert_eq!((cut[0].len, whole[0].len), (2, 4));
/// # Ok::<(), Refusal>(())
/// ```
#[derive(Clone, Copy, Debug, PartialEq, Eq)]
pub enum Way {
    /// Each range takes its own bytes.
    Chunks = 0,
    /// A device takes whole pieces, which the end of its range does not cut: QEMU's rule.
    Qemu = 1,
}

/// Who asks which pages were written.
///
/// ```
/// # use vobrekan::*;
/// # let mut machine = Machine::new(1 << 16)?;
/// # let (board, ram) = (machine.region(Kind::Container, WHOLE)?, machine.region(Kind::Ram, 0x2000)?);
/// # machine.space(SpaceId(0), board)?;
/// # machine.add(board, 0, ram, 0)?;
/// machine.log(ram, Client::Display, true)?;
/// machine.write(PassId(0), SpaceId(0), 0x1000, &[1])?;
/// assert_eq!(machine.harvest(ram, Client::Display)?.iter().collect::<Vec<_>>(), [1]);
/// # Ok::<(), Refusal>(())
/// ```
#[derive(Clone, Copy, Debug, PartialEq, Eq)]
pub enum Client {
    /// A display, `vga` in a script.
    Display = 0,
    /// Translated code.
    Code = 1,
    /// A migration.
    Migration = 2,
}

/// Which accesses a translation lets through.
///
/// ```
/// # use vobrekan::*;
/// # let mut machine = Machine::new(1 << 16)?;
/// # let (board, ram) = (machine.region(Kind::Container, WHOLE)?, machine.region(Kind::Ram, 0x2000)?);
/// # machine.space(SpaceId(0), board)?;
/// # machine.add(board, 0, ram, 0)?;
/// let bus = machine.region(Kind::Iommu, 0x1_0000)?;
/// machine.space(SpaceId(1), bus)?;
/// machine.map(bus, 0, 0x1000, (SpaceId(0), 0), Perm::Read)?;
/// assert!(machine.write(PassId(0), SpaceId(1), 0, &[1])?.decode); // only reads go through
/// # Ok::<(), Refusal>(())
/// ```
#[derive(Clone, Copy, Debug, PartialEq, Eq)]
pub enum Perm {
    /// None.
    Nothing = 0,
    /// Reads.
    Read = 1,
    /// Writes.
    Write = 2,
    /// Reads and writes.
    Both = 3,
}

/// How an access ended, and the number of the generation in which it ran.
///
/// ```
/// # use vobrekan::*;
/// # let mut machine = Machine::new(1 << 16)?;
/// # let (board, ram) = (machine.region(Kind::Container, WHOLE)?, machine.region(Kind::Ram, 0x2000)?);
/// # machine.space(SpaceId(0), board)?;
/// # machine.add(board, 0, ram, 0)?;
/// let access = machine.read(PassId(0), SpaceId(0), 0x1fff, &mut [0; 2])?;
/// assert_eq!(access, Access { error: false, decode: true, generation: 2 });
/// # Ok::<(), Refusal>(())
/// ```
#[derive(Clone, Copy, Debug, PartialEq, Eq)]
pub struct Access {
    /// A device answered with an error.
    pub error: bool,
    /// Nothing answered some byte.
    pub decode: bool,
    /// The generation by which it went.
    pub generation: u64,
}
