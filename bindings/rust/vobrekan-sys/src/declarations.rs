// Made by bindings/declare from crates/libvobrekan/src.

/// It is done.
pub const VB_DONE: u32 = 0;

/// Something that the call names is not there: `what` is its sort, `value` its number.
pub const VB_UNKNOWN: u32 = 1;

/// The space or the listener is there already: `what` is its sort, `value` its number.
pub const VB_NAME_TAKEN: u32 = 2;

/// The region is in the container `value`.
pub const VB_HAS_CONTAINER: u32 = 3;

/// The region `value` is in another container than the one named, or in none.
pub const VB_NOT_CHILD: u32 = 4;

/// `value` is an alias, which takes no children.
pub const VB_ALIAS_PARENT: u32 = 5;

/// `value` would be its own container, or is reached from the region to be placed in it.
pub const VB_LOOP: u32 = 6;

/// Some region would have the depth `value`, above 32.
pub const VB_TOO_DEEP: u32 = 7;

/// Some region would have the weight `value`, above 65,536.
pub const VB_TOO_WIDE: u32 = 8;

/// The size, or the range of bytes, is not valid.
pub const VB_BAD_SIZE: u32 = 9;

/// No device has such access sizes, registers or ioeventfd.
pub const VB_BAD_OPS: u32 = 10;

/// The region `value` is of another kind than the call is for.
pub const VB_WRONG_KIND: u32 = 11;

/// No transaction is open.
pub const VB_NO_TRANSACTION: u32 = 12;

/// 64 transactions are open.
pub const VB_TOO_NESTED: u32 = 13;

/// The region is used by `value`: `what` is 0 for a region, 1 for a space.
pub const VB_IN_USE: u32 = 14;

/// The translation meets the one at the offset `value`.
pub const VB_PAGE_OVERLAP: u32 = 15;

/// The page of a translation is no power of two, or not aligned to its size.
pub const VB_BAD_PAGE: u32 = 16;

/// The count `what` stands at its limit `value`.
pub const VB_LIMIT_REACHED: u32 = 17;

/// No hole of the pool has `value` words.
pub const VB_NO_BACKING: u32 = 18;

/// The pass `value` may still use the generation `other`.
pub const VB_HELD: u32 = 19;

/// The region has this ioeventfd.
pub const VB_EVENT_TAKEN: u32 = 20;

/// Out of memory.
pub const VB_MEMORY: u32 = 21;

/// An argument, `value`, stands for nothing.
pub const VB_ARGUMENT: u32 = 22;

/// The handle has no machine, desk or virtual CPU.
pub const VB_NO_MACHINE: u32 = 23;

/// The handle has one.
pub const VB_HAS_MACHINE: u32 = 24;

/// The text is no script: `other` is the number of its first line at fault.
pub const VB_NO_SCRIPT: u32 = 25;

/// Only a part of some word would be replaced, in the generation `other`.
pub const VB_NOT_WHOLE: u32 = 26;

/// All 16 virtual CPUs are handed out.
pub const VB_NO_CPU: u32 = 27;

/// Of a write only the first `value` bytes are written, in the generation `other`: a word was changed each time that it was tried.
pub const VB_CONTENDED: u32 = 28;

/// The virtual CPU is entered in no generation.
pub const VB_NOT_ENTERED: u32 = 29;

/// A refusal names a region.
pub const VB_SORT_REGION: u32 = 0;

/// A refusal names an address space.
pub const VB_SORT_SPACE: u32 = 1;

/// A refusal names a listener.
pub const VB_SORT_LISTENER: u32 = 2;

/// A refusal names a watcher.
pub const VB_SORT_WATCHER: u32 = 3;

/// A refusal names a translation, by its offset.
pub const VB_SORT_ENTRY: u32 = 4;

/// A refusal names an ioeventfd, by its offset.
pub const VB_SORT_EVENT: u32 = 5;

/// The regions that are there.
pub const VB_LIMIT_REGIONS: u32 = 0;

/// The regions that were ever made.
pub const VB_LIMIT_MADE: u32 = 1;

/// The address spaces.
pub const VB_LIMIT_SPACES: u32 = 2;

/// The listeners.
pub const VB_LIMIT_LISTENERS: u32 = 3;

/// The translations of a region.
pub const VB_LIMIT_ENTRIES: u32 = 4;

/// The ioeventfds of a region.
pub const VB_LIMIT_EVENTS: u32 = 5;

/// The calls of the machine.
pub const VB_LIMIT_CALLS: u32 = 6;

/// The watchers.
pub const VB_LIMIT_WATCHERS: u32 = 7;

/// A container, which only groups its children.
pub const VB_KIND_CONTAINER: u32 = 0;

/// RAM.
pub const VB_KIND_RAM: u32 = 1;

/// ROM.
pub const VB_KIND_ROM: u32 = 2;

/// A ROM device.
pub const VB_KIND_ROM_DEVICE: u32 = 3;

/// A device.
pub const VB_KIND_IO: u32 = 4;

/// An IOMMU region.
pub const VB_KIND_IOMMU: u32 = 5;

/// An alias.
pub const VB_KIND_ALIAS: u32 = 6;

/// A reservation.
pub const VB_KIND_RESERVE: u32 = 7;

/// Host memory.
pub const VB_KIND_HOST: u32 = 8;

/// A latch: a register keeps what is written.
pub const VB_DEVICE_LATCH: u32 = 0;

/// A counter: a read adds one.
pub const VB_DEVICE_COUNT: u32 = 1;

/// A bell: a write sets bits, and a read clears them.
pub const VB_DEVICE_BELL: u32 = 2;

/// A fault: it answers with an error.
pub const VB_DEVICE_FAULT: u32 = 3;

/// An order: `vb_begin`.
pub const VB_DO_BEGIN: u32 = 0;

/// An order: `vb_commit`.
pub const VB_DO_COMMIT: u32 = 1;

/// An order: `vb_listen`.
pub const VB_DO_LISTEN: u32 = 2;

/// An order: `vb_unlisten`.
pub const VB_DO_UNLISTEN: u32 = 3;

/// An order: a region of the kind `kind` is made.
pub const VB_DO_REGION: u32 = 4;

/// An order: `vb_space`.
pub const VB_DO_SPACE: u32 = 5;

/// An order: `vb_add`.
pub const VB_DO_ADD: u32 = 6;

/// An order: `vb_del`.
pub const VB_DO_DEL: u32 = 7;

/// An order: `vb_move`.
pub const VB_DO_MOVE: u32 = 8;

/// An order: `vb_resize`.
pub const VB_DO_RESIZE: u32 = 9;

/// An order: `vb_retarget`.
pub const VB_DO_RETARGET: u32 = 10;

/// An order: `vb_enable`.
pub const VB_DO_ENABLE: u32 = 11;

/// An order: `vb_readonly`.
pub const VB_DO_READONLY: u32 = 12;

/// An order: `vb_nonvolatile`.
pub const VB_DO_NONVOLATILE: u32 = 13;

/// An order: `vb_unmergeable`.
pub const VB_DO_UNMERGEABLE: u32 = 14;

/// An order: `vb_romd`.
pub const VB_DO_ROMD: u32 = 15;

/// An order: `vb_log`.
pub const VB_DO_LOG: u32 = 16;

/// An order: `vb_global`.
pub const VB_DO_GLOBAL: u32 = 17;

/// An order: `vb_map`.
pub const VB_DO_MAP: u32 = 18;

/// An order: `vb_unmap`.
pub const VB_DO_UNMAP: u32 = 19;

/// An order: `vb_event`.
pub const VB_DO_EVENT: u32 = 20;

/// An order: `vb_unevent`.
pub const VB_DO_UNEVENT: u32 = 21;

/// An order: `vb_drop`.
pub const VB_DO_DROP: u32 = 22;

/// The client `vga` of a script: a display.
pub const VB_CLIENT_DISPLAY: u32 = 0;

/// The client `code`: translated code.
pub const VB_CLIENT_CODE: u32 = 1;

/// The client `migration`.
pub const VB_CLIENT_MIGRATION: u32 = 2;

/// A translation lets nothing through.
pub const VB_PERM_NOTHING: u32 = 0;

/// A translation lets reads through.
pub const VB_PERM_READ: u32 = 1;

/// A translation lets writes through.
pub const VB_PERM_WRITE: u32 = 2;

/// A translation lets reads and writes through.
pub const VB_PERM_BOTH: u32 = 3;

/// How an access ended: a device answered with an error.
pub const VB_ACCESS_ERROR: u32 = 1;

/// How an access ended: nothing answered some byte.
pub const VB_ACCESS_DECODE: u32 = 2;

/// Of a write that was given up: a device has taken the first of the callbacks that come next.
pub const VB_ACCESS_BEGUN: u32 = 4;

/// A plan in which each range takes its own bytes.
pub const VB_WAY_CHUNKS: u32 = 0;

/// A plan by QEMU's rule: a device takes whole pieces, which the end of its range does not cut.
pub const VB_WAY_QEMU: u32 = 1;

/// An access reaches memory.
pub const VB_REACHED_MEMORY: u32 = 0;

/// An access reaches a callback of a device.
pub const VB_REACHED_CALLBACK: u32 = 1;

/// An access sets a notifier.
pub const VB_REACHED_NOTIFIER: u32 = 2;

/// An access marks a page.
pub const VB_REACHED_MARK: u32 = 3;

/// Nothing answers.
pub const VB_REACHED_NOTHING: u32 = 4;

/// A listener is told that a change begins.
pub const VB_TOLD_BEGIN: u32 = 0;

/// A listener is told that a range is gone.
pub const VB_TOLD_DELETE: u32 = 1;

/// A listener is told that a range is there.
pub const VB_TOLD_ADD: u32 = 2;

/// A listener is told that a range stays.
pub const VB_TOLD_KEEP: u32 = 3;

/// A listener is told that logging starts.
pub const VB_TOLD_LOG_START: u32 = 4;

/// A listener is told that logging stops.
pub const VB_TOLD_LOG_STOP: u32 = 5;

/// A listener is told that an ioeventfd is there.
pub const VB_TOLD_EVENT_ADD: u32 = 6;

/// A listener is told that an ioeventfd is gone.
pub const VB_TOLD_EVENT_DEL: u32 = 7;

/// A listener is told that the change is whole.
pub const VB_TOLD_COMMIT: u32 = 8;

/// What C keeps of a machine: a pointer, which is null where there is none.
#[repr(C)]
#[derive(Debug)]
pub struct vb_machine {
    /// What the library keeps there; a caller leaves it alone.
    pub at: *mut core::ffi::c_void,
}

/// What C keeps of the desk of a machine that virtual CPUs share: a pointer, which is null where there is none.
#[repr(C)]
#[derive(Debug)]
pub struct vb_desk {
    /// What the library keeps there; a caller leaves it alone.
    pub at: *mut core::ffi::c_void,
}

/// What C keeps of a virtual CPU: a pointer, which is null where there is none.
#[repr(C)]
#[derive(Debug)]
pub struct vb_cpu {
    /// What the library keeps there; a caller leaves it alone.
    pub at: *mut core::ffi::c_void,
}

/// What a call answers: a code, and what it names.
///
/// The code is 0 where it is done. 1 to 20 are the refusals of the machine, numbered as the lines of a script number them, and
/// above these stand those of the library itself. A refused call changes nothing of the map. The code 28 alone is no refusal: a write was given up
/// after its first bytes.
#[repr(C)]
#[derive(Clone, Copy, Debug, Default, PartialEq, Eq)]
pub struct vb_answer {
    /// What came of the call, by `VB_DONE` and those after it.
    pub code: u32,
    /// Which sort of thing `value` is: of a refusal that may name several, or 1 where a region was made.
    pub what: u32,
    /// The region that was made, what a refusal names, a limit, or a count.
    pub value: u64,
    /// The number of the generation that a call published, 0 where none was; of a pass that holds a publish up, its generation.
    pub other: u64,
}

/// A device: what its registers do, how many words of 8 bytes they are, and its access sizes in bytes.
///
/// The kinds are 0 latch, 1 counter, 2 bell and 3 fault.
#[repr(C)]
#[derive(Clone, Copy, Debug, Default, PartialEq, Eq)]
pub struct vb_device {
    /// What its registers do, by `VB_DEVICE_..`.
    pub kind: u32,
    /// How many registers of 8 bytes it has.
    pub regs: u32,
    /// The smallest access of a guest, in bytes.
    pub valid_min: u8,
    /// The largest access of a guest, in bytes.
    pub valid_max: u8,
    /// Whether a guest's access may be unaligned.
    pub valid_unaligned: bool,
    /// The smallest callback, in bytes.
    pub impl_min: u8,
    /// The largest callback, in bytes.
    pub impl_max: u8,
    /// Whether a callback may be unaligned.
    pub impl_unaligned: bool,
    /// Whether the first byte of a callback is the highest.
    pub big: bool,
}

/// An ioeventfd: a write of `size` bytes at `offset` in its device sets the notifier `number`, where it is any write or
/// writes `value`.
#[repr(C)]
#[derive(Clone, Copy, Debug, Default, PartialEq, Eq)]
pub struct vb_ioevent {
    /// The offset in its device, in bytes.
    pub offset: u64,
    /// The value that counts, where `matched` is set.
    pub value: u64,
    /// The notifier, 0 to 63.
    pub number: u32,
    /// The size of the write, in bytes.
    pub size: u8,
    /// Whether only a write of `value` counts.
    pub matched: bool,
}

/// What is asked of a desk. `what` says which of the calls of a machine it is, by `VB_DO_..`; each takes the numbers that it names, and the
/// others are not looked at.
#[repr(C)]
#[derive(Clone, Copy, Debug, Default, PartialEq, Eq)]
pub struct vb_order {
    /// An offset in a container, in a target, or in a table, in bytes.
    pub offset: u64,
    /// In bytes; 2^64 - 1 stands for 2^64.
    pub size: u64,
    /// Where a translation goes on.
    pub translated: u64,
    /// Which call it is, by `VB_DO_..`.
    pub what: u32,
    /// The kind of a region that is made, by `VB_KIND_..`.
    pub kind: u32,
    /// The region, by its number.
    pub region: u32,
    /// The region that is placed or taken out, the target of an alias, or the root of a space.
    pub other: u32,
    /// The address space, by its number.
    pub space: u32,
    /// The listener, by its number.
    pub listener: u32,
    /// Whose logging is switched, by `VB_CLIENT_..`.
    pub client: u32,
    /// Which accesses a translation lets through, by `VB_PERM_..`.
    pub perm: u32,
    /// The priority of a child or of a listener.
    pub priority: i32,
    /// Whether something is switched on.
    pub on: bool,
    /// The device of a region that is made.
    pub device: vb_device,
    /// The ioeventfd.
    pub event: vb_ioevent,
}

/// A range of a view: the addresses `start` to `last` inclusive are answered by a region, from `offset` in it on.
#[repr(C)]
#[derive(Clone, Copy, Debug, Default, PartialEq, Eq)]
pub struct vb_flat_range {
    /// The first address.
    pub start: u64,
    /// The last address, inclusive.
    pub last: u64,
    /// The offset of the first address in the region, in bytes.
    pub offset: u64,
    /// The region, by its number.
    pub region: u32,
    /// The logging mask: bits 0 display, 1 code, 2 migration.
    pub log: u8,
    /// Whether it is read-only.
    pub readonly: bool,
    /// Whether it is non-volatile.
    pub nonvolatile: bool,
    /// The mode of a ROM device.
    pub romd: bool,
    /// Whether it ends where the path to its leaf changes.
    pub unmergeable: bool,
}

/// What an address leads to: the byte of a region, if there is one, and the last address after it that is answered alike.
#[repr(C)]
#[derive(Clone, Copy, Debug, Default, PartialEq, Eq)]
pub struct vb_found {
    /// The last address of the range that holds the address, or of the hole that does.
    pub last: u64,
    /// The offset in the region, in bytes.
    pub offset: u64,
    /// The region, by its number.
    pub region: u32,
    /// 0 container, 1 RAM, 2 ROM, 3 ROM device, 4 device, 5 IOMMU region, 6 alias, 7 reservation, 8 host memory.
    pub kind: u32,
    /// The logging mask: bits 0 display, 1 code, 2 migration.
    pub log: u8,
    /// Whether it is read-only.
    pub readonly: bool,
    /// Whether it is non-volatile.
    pub nonvolatile: bool,
    /// The mode of a ROM device.
    pub romd: bool,
    /// Whether it ends where the path to its leaf changes.
    pub unmergeable: bool,
    /// Whether some region answers. Where none does, all but `last` is 0.
    pub is_there: bool,
}

/// One thing that an access reaches. `what` is 0 memory, 1 a callback of a device, 2 a notifier, 3 a mark of a page, 4 nothing. It is
/// about `len` bytes of the access, those from byte `at` of it on; a mark is about none.
#[repr(C)]
#[derive(Clone, Copy, Debug, Default, PartialEq, Eq)]
pub struct vb_reached {
    /// The offset in the region, or the page that is marked, of 4,096 bytes, from 0 on.
    pub offset: u64,
    /// The number that a callback takes.
    pub value: u64,
    /// The first byte of the access that it is about.
    pub at: u64,
    /// How many bytes of the access it is about.
    pub len: u64,
    /// What is reached, by `VB_REACHED_..`.
    pub what: u32,
    /// The region whose memory, callback or page it is.
    pub region: u32,
    /// The number of the notifier, or of the client for whom a page is marked: 0 display, 1 code, 2 migration.
    pub number: u32,
    /// The size of a callback, in bytes.
    pub size: u8,
    /// Whether a callback takes a number; else it answers one, of whose bytes in the order of addresses the first `len` are read.
    pub takes: bool,
    /// Whether the first of these bytes is the highest.
    pub big: bool,
}

/// An ioeventfd as a view shows it. Its address is `distance` bytes from 0: below it where a view shows only the end of its bytes.
#[repr(C)]
#[derive(Clone, Copy, Debug, Default, PartialEq, Eq)]
pub struct vb_live_event {
    /// How many bytes from 0 its address is.
    pub distance: u64,
    /// The value that counts, where `matched` is set.
    pub value: u64,
    /// The notifier.
    pub number: u32,
    /// The size of the write, in bytes.
    pub size: u8,
    /// Whether only a write of `value` counts.
    pub matched: bool,
    /// Whether its address is below 0.
    pub is_below: bool,
}

/// One call of a listener. `what` is 0 begin, 1 a range is gone, 2 it is there, 3 it stays, 4 logging starts, 5 logging stops, 6 an
/// ioeventfd is there, 7 it is gone, 8 commit.
#[repr(C)]
#[derive(Clone, Copy, Debug, Default, PartialEq, Eq)]
pub struct vb_listener_call {
    /// What the listener is told, by `VB_TOLD_..`.
    pub what: u32,
    /// The listener, by its number.
    pub listener: u32,
    /// The range.
    pub range: vb_flat_range,
    /// The ioeventfd.
    pub event: vb_live_event,
    /// The logging mask before, where logging starts or stops.
    pub from: u8,
    /// The logging mask after it.
    pub to: u8,
}

unsafe extern "C" {
    /// Reads bytes of a space by a pass, 0 to 15, as many as there is room for. A pass that is out enters the current generation
    /// before it and leaves after it. QEMU's core, `address_space_read`.
    ///
    /// `what` of the answer has 1 where a device answered with an error and 2 where nothing answered some byte; `value` is the number
    /// of the generation. A greater pass is refused.
    pub fn vb_read(handle: *mut vb_machine, pass: u32, space: u32, addr: u64, out: *mut u8, out_len: usize) -> vb_answer;

    /// Writes bytes to a space by a pass, as `vb_read` reads them. QEMU's core, `address_space_write`.
    pub fn vb_write(handle: *mut vb_machine, pass: u32, space: u32, addr: u64, bytes: *const u8, bytes_len: usize) -> vb_answer;

    /// Makes an address space with this root.
    pub fn vb_space(handle: *mut vb_machine, space: u32, root: u32) -> vb_answer;

    /// Places a region in a container, `offset` bytes into it. Of two children that hold an address, the one of higher priority is
    /// found.
    pub fn vb_add(handle: *mut vb_machine, parent: u32, offset: u64, child: u32, priority: i32) -> vb_answer;

    /// Takes a region out of its container.
    pub fn vb_del(handle: *mut vb_machine, parent: u32, child: u32) -> vb_answer;

    /// Moves a region in its container.
    pub fn vb_move(handle: *mut vb_machine, child: u32, offset: u64) -> vb_answer;

    /// Gives a region another size: any region but memory.
    pub fn vb_resize(handle: *mut vb_machine, region: u32, size: u64) -> vb_answer;

    /// Moves the window of an alias in its target.
    pub fn vb_retarget(handle: *mut vb_machine, alias: u32, offset: u64) -> vb_answer;

    /// Switches a region on or off: one that is off is left out wherever it stands.
    pub fn vb_enable(handle: *mut vb_machine, region: u32, on: bool) -> vb_answer;

    /// Switches whether what is found through the region is read-only.
    pub fn vb_readonly(handle: *mut vb_machine, region: u32, on: bool) -> vb_answer;

    /// Switches whether what is found through the region is non-volatile.
    pub fn vb_nonvolatile(handle: *mut vb_machine, region: u32, on: bool) -> vb_answer;

    /// Switches whether ranges that are found through the region end where the path to their leaf changes.
    pub fn vb_unmergeable(handle: *mut vb_machine, region: u32, on: bool) -> vb_answer;

    /// Switches the mode of a ROM device.
    pub fn vb_romd(handle: *mut vb_machine, region: u32, on: bool) -> vb_answer;

    /// Switches the logging of a region for one client: 0 display, 1 code, 2 migration. Another is refused.
    pub fn vb_log(handle: *mut vb_machine, region: u32, client: u32, on: bool) -> vb_answer;

    /// Switches global logging.
    pub fn vb_global(handle: *mut vb_machine, on: bool) -> vb_answer;

    /// Puts a translation into the table of an IOMMU region: the page at `iova` goes on at `translated` in a space. `perm` is 0
    /// nothing, 1 reads, 2 writes, 3 both; another is refused.
    pub fn vb_map(handle: *mut vb_machine, region: u32, iova: u64, size: u64, space: u32, translated: u64, perm: u32) -> vb_answer;

    /// Takes a translation out.
    pub fn vb_unmap(handle: *mut vb_machine, region: u32, iova: u64) -> vb_answer;

    /// Gives a device an ioeventfd.
    pub fn vb_event(handle: *mut vb_machine, region: u32, event: *const vb_ioevent) -> vb_answer;

    /// Takes an ioeventfd away: the one with this offset, size, value and `matched`. Its notifier does not matter.
    pub fn vb_unevent(handle: *mut vb_machine, region: u32, event: *const vb_ioevent) -> vb_answer;

    /// Drops a region that nothing uses. A `vb_reap` gives its memory back.
    pub fn vb_drop(handle: *mut vb_machine, region: u32) -> vb_answer;

    /// Enters the current generation: accesses go by it until the virtual CPU leaves it or enters anew. `other` of the answer is its number.
    /// QEMU's core, `rcu_read_lock`.
    pub fn vb_cpu_enter(handle: *mut vb_cpu) -> vb_answer;

    /// Leaves the generation that the virtual CPU is entered in; where it is in none, it does nothing. QEMU's core, `rcu_read_unlock`.
    pub fn vb_cpu_leave(handle: *mut vb_cpu) -> vb_answer;

    /// Reads bytes of a space, as many as there is room for, in the generation that the virtual CPU is entered in, and where it is in none in the
    /// current one. The answer is that of `vb_read`. It never waits. QEMU's core, `address_space_read`.
    pub fn vb_cpu_read(handle: *mut vb_cpu, space: u32, addr: u64, out: *mut u8, out_len: usize) -> vb_answer;

    /// Writes the eight bytes of a number, the lowest first, as `vb_cpu_read` reads bytes. It never waits: where it would replace only a part
    /// of some word, it writes nothing, with the code 26, and `other` of the answer is the number of the generation. QEMU's core,
    /// `address_space_write`.
    pub fn vb_cpu_write8(handle: *mut vb_cpu, space: u32, addr: u64, value: u64) -> vb_answer;

    /// Writes bytes to a space, as `vb_cpu_read` reads them. It never waits: a part of a word is replaced by an exchange, which fails where
    /// another changed the word meanwhile, and each is tried at most `tries` times. QEMU's core, `address_space_write`.
    ///
    /// Where all are written the answer is that of `vb_write`. Else its code is 28, `value` is how many of the first bytes are written, with the
    /// marks of just these, `what` how their write ended, and `other` the number of the generation: the caller may go on after them. `what` has 4
    /// where a device, whose access takes several callbacks, has taken the first of those that come next.
    pub fn vb_cpu_write(handle: *mut vb_cpu, space: u32, addr: u64, bytes: *const u8, bytes_len: usize, tries: u32) -> vb_answer;

    /// Leaves where the virtual CPU is entered, and frees it, if the handle has one. The handle has none then.
    pub fn vb_cpu_free(handle: *mut vb_cpu);

    /// What listeners were told: the call at an index, counted from the first that is not forgotten, where there is one. `value` of the
    /// answer is how many there are, so that a caller that keeps its index polls: it reads on from there until it comes to `value`. Calls
    /// are kept until `vb_forget` forgets them.
    pub fn vb_delivery(handle: *mut vb_machine, index: usize, out: *mut vb_listener_call) -> vb_answer;

    /// Makes a machine that virtual CPUs share, over a pool of this many words of 8 bytes, at most 2^26, and its desk for a handle that has
    /// none.
    pub fn vb_desk_new(handle: *mut vb_desk, words: usize) -> vb_answer;

    /// Frees the desk of a handle, if it has one. The handle has none then. Virtual CPUs that it handed out stay, in the last generation that
    /// was published; what they share is freed with the last of them.
    pub fn vb_desk_free(handle: *mut vb_desk);

    /// Asks the desk for a call that changes the map, a transaction, or a listener, as the call of that name asks a machine for it. It is done
    /// beside the virtual CPUs: what is published, those that enter later see. `vb_desk_ask` waits for none of them: where one may still use the
    /// generation that a publish would overwrite, seven before the current one, it is refused with the code 19.
    pub fn vb_desk_ask(handle: *mut vb_desk, order: *const vb_order) -> vb_answer;

    /// Hands out a virtual CPU, for a handle that has none. There are 16, numbered from 0 in the order in which they are handed out, and after
    /// these it is refused with the code 27. It has seen all that the desk has done.
    pub fn vb_desk_cpu(handle: *mut vb_desk, cpu: *mut vb_cpu) -> vb_answer;

    /// Takes a notifier, as `vb_notified` does.
    pub fn vb_desk_notified(handle: *mut vb_desk, number: u32) -> vb_answer;

    /// Releases dropped regions, as `vb_reap` does: a generation in which a virtual CPU is entered is in use.
    pub fn vb_desk_reap(handle: *mut vb_desk, out: *mut u32, out_len: usize) -> vb_answer;

    /// Takes the marks of a region for one client, as `vb_harvest` does: a page that a virtual CPU writes meanwhile is told now or the next time.
    pub fn vb_desk_harvest(handle: *mut vb_desk, region: u32, client: u32, out: *mut u64, out_len: usize) -> vb_answer;

    /// What an address of a space leads to in the current generation, as `vb_find` tells it.
    pub fn vb_desk_find(handle: *mut vb_desk, space: u32, addr: u64, out: *mut vb_found) -> vb_answer;

    /// A range of the current view of a space, as `vb_range` tells it.
    pub fn vb_desk_range(handle: *mut vb_desk, space: u32, index: usize, out: *mut vb_flat_range) -> vb_answer;

    /// What listeners were told, as `vb_delivery` tells it.
    pub fn vb_desk_delivery(handle: *mut vb_desk, index: usize, out: *mut vb_listener_call) -> vb_answer;

    /// What a read of `len` bytes of a space reaches in the generation that the virtual CPU is entered in, as `vb_plan_read` tells it of the current
    /// one, in its `way`. No region that is named is released before the virtual CPU leaves the generation, so what a plan names may be used until
    /// then. Where it is in none, it is refused with code 29. It asks no lock, and may be called beside the desk and other virtual CPUs.
    pub fn vb_cpu_plan_read(handle: *mut vb_cpu, way: u32, space: u32, addr: u64, len: usize, out: *mut vb_reached, out_len: usize) -> vb_answer;

    /// What a write of bytes to a space reaches in the generation that the virtual CPU is entered in, as `vb_plan_write` tells it of the current one
    /// and `vb_cpu_plan_read` of a read.
    pub fn vb_cpu_plan_write(handle: *mut vb_cpu, way: u32, space: u32, addr: u64, bytes: *const u8, bytes_len: usize, out: *mut vb_reached, out_len: usize) -> vb_answer;

    /// What an address of a space leads to in the generation that the virtual CPU is entered in, as `vb_find` tells it of the current one. Where it is
    /// in none, it is refused with code 29. It asks no lock.
    pub fn vb_cpu_find(handle: *mut vb_cpu, space: u32, addr: u64, out: *mut vb_found) -> vb_answer;

    /// The range at an index of the view of a space in the generation that the virtual CPU is entered in, as `vb_range` tells it of the current one.
    /// Where it is in none, it is refused with code 29. It asks no lock.
    pub fn vb_cpu_range(handle: *mut vb_cpu, space: u32, index: usize, out: *mut vb_flat_range) -> vb_answer;

    /// The path on which an address of a space is found in the generation that the virtual CPU is entered in, as `vb_path` tells it of the current
    /// one. Where it is in none, it is refused with code 29. It asks no lock.
    pub fn vb_cpu_path(handle: *mut vb_cpu, space: u32, addr: u64, out: *mut u32, out_len: usize) -> vb_answer;

    /// Forgets the first `count` of the calls that listeners got and that are not forgotten yet, all of them where there are fewer. `value`
    /// of the answer is how many it forgot: `vb_delivery` counts from the first that is not forgotten, so an index that a caller keeps is
    /// lower by that many. The listeners stay, and are told nothing. It takes no memory.
    ///
    /// A machine that runs for long keeps what listeners were told until it is forgotten here.
    pub fn vb_forget(handle: *mut vb_machine, count: usize) -> vb_answer;

    /// Forgets what the listeners of a desk were told, as `vb_forget` does: `vb_desk_delivery` counts from the first call that is not forgotten.
    pub fn vb_desk_forget(handle: *mut vb_desk, count: usize) -> vb_answer;

    /// Takes the marks of a region for one client, 0 display, 1 code, 2 migration: the pages that were written since they were last taken.
    /// Page 64 i + b, of 4,096 bytes, was written where bit b of word i of `out` is set. `value` of the answer is how many pages were. QEMU's
    /// core, `cpu_physical_memory_snapshot_and_clear_dirty`.
    ///
    /// The region is one whose bytes the machine has. Another client is refused, and so is a buffer with fewer words than have a bit for each
    /// page of the region in the current generation: `value` of that answer is how many it takes. Where the call is refused, or memory runs out,
    /// the marks stay, and nothing is written.
    pub fn vb_harvest(handle: *mut vb_machine, region: u32, client: u32, out: *mut u64, out_len: usize) -> vb_answer;

    /// The path on which an address of a space is found in the current generation: the regions that the search passes, aliases among them,
    /// from the root to the one that answers, at most 32. Where nothing answers there is none. QEMU's manual, "The memory API", "Visibility".
    ///
    /// `out` has as many of their numbers as there is room for; `value` of the answer is how many there are, and `other` the number of the
    /// generation. It takes one pass over all regions: `vb_find` is for each access, this for a person. Where memory runs out nothing is written.
    pub fn vb_path(handle: *mut vb_machine, space: u32, addr: u64, out: *mut u32, out_len: usize) -> vb_answer;

    /// What a read of `len` bytes of a space reaches in the current generation, in order and nothing else, for a monitor that has the memory
    /// and the devices itself: it makes the callbacks, reads its memory, and takes 0 where nothing is. `way` is 0 for this machine's way, in
    /// which each range takes its own bytes, and 1 for QEMU's, in which a device takes whole pieces that the end of its range does not
    /// cut. Memory of the host is reached as RAM is. QEMU's core, `address_space_read`.
    ///
    /// `out` has as many things as there is room for; `value` of the answer is how many there are, and `other` the number of the
    /// generation. It is refused with code 9 where the access goes on past the last address (or, in QEMU's way, meets the last 7 offsets of
    /// a device of 2^64 bytes), and with 22 for another way; then nothing is written, and neither where memory runs out.
    pub fn vb_plan_read(handle: *mut vb_machine, way: u32, space: u32, addr: u64, len: usize, out: *mut vb_reached, out_len: usize) -> vb_answer;

    /// What a write of bytes to a space reaches, as `vb_plan_read` tells it of a read: callbacks come with the numbers that they take, and
    /// pages that are logged are to be marked. Memory that is shown through a read-only alias takes no write in this machine's way, and takes it
    /// in QEMU's, which asks the region itself. QEMU's core, `address_space_write`.
    pub fn vb_plan_write(handle: *mut vb_machine, way: u32, space: u32, addr: u64, bytes: *const u8, bytes_len: usize, out: *mut vb_reached, out_len: usize) -> vb_answer;

    /// Makes a container: a region that only groups others. `size` is in bytes, and 2^64 - 1 stands for 2^64, here and below.
    pub fn vb_container(handle: *mut vb_machine, size: u64) -> vb_answer;

    /// Makes RAM. Its size is whole pages of 4,096 bytes, at most 512 MiB.
    pub fn vb_ram(handle: *mut vb_machine, size: u64) -> vb_answer;

    /// Makes ROM: memory that a guest only reads, and that `vb_load` fills.
    pub fn vb_rom(handle: *mut vb_machine, size: u64) -> vb_answer;

    /// Makes host memory: RAM whose bytes the caller keeps.
    pub fn vb_host(handle: *mut vb_machine, size: u64) -> vb_answer;

    /// Makes an IOMMU region, whose table is empty at first.
    pub fn vb_iommu(handle: *mut vb_machine, size: u64) -> vb_answer;

    /// Makes a reservation: a range that is claimed and has no callbacks.
    pub fn vb_reserve(handle: *mut vb_machine, size: u64) -> vb_answer;

    /// Makes an alias: a window on `target`, from `offset` in it on.
    pub fn vb_alias(handle: *mut vb_machine, size: u64, target: u32, offset: u64) -> vb_answer;

    /// Makes a device. A kind of device that there is not is refused.
    pub fn vb_io(handle: *mut vb_machine, size: u64, device: *const vb_device) -> vb_answer;

    /// Makes a ROM device. A kind of device that there is not is refused.
    pub fn vb_rom_device(handle: *mut vb_machine, size: u64, device: *const vb_device) -> vb_answer;

    /// Runs a script on a machine of its own: `out` has as many bytes of what it writes as there is room for, and `value` of the answer is
    /// how many there are.
    ///
    /// Of a text that is no script, with the code 25, the line of its first fault is written, and `other` of the answer is the number of
    /// that line: 0 where the text as a whole is too long. Where memory runs out nothing is written. It needs no handle.
    pub fn vb_run(script: *const u8, script_len: usize, out: *mut u8, out_len: usize) -> vb_answer;

    /// The range at an index of the current view of a space, by ascending address: `out` has it, where there is one. `value` of the
    /// answer is the number of ranges, and `other` that of the generation.
    pub fn vb_range(handle: *mut vb_machine, space: u32, index: usize, out: *mut vb_flat_range) -> vb_answer;

    /// What an address of a space leads to in the current generation: the byte of a region, and how far it goes on alike. QEMU's
    /// core, `memory_region_find`. `other` of the answer is the number of the generation.
    pub fn vb_find(handle: *mut vb_machine, space: u32, addr: u64, out: *mut vb_found) -> vb_answer;

    /// What an answer says to a person, in ASCII: `out` has as many bytes of it as there is room for, and `whole` is how many there are.
    ///
    /// It answers 0, or 21 where memory ran out: then nothing is written. Any answer is taken, one that no call gives too.
    pub fn vb_print(answer: *const vb_answer, out: *mut u8, out_len: usize, whole: *mut usize) -> u32;

    /// Makes a machine over a pool of this many words of 8 bytes, at most 2^26, for a handle that has none.
    ///
    /// The memory of RAM, ROM and ROM devices, their marks, and the registers of devices are in the pool.
    pub fn vb_new(handle: *mut vb_machine, words: usize) -> vb_answer;

    /// Frees the machine of a handle, if it has one. The handle has none then.
    pub fn vb_free(handle: *mut vb_machine);

    /// Opens a transaction, inside of those that are open. What is changed in it is published by the `vb_commit` that closes the
    /// outermost one.
    pub fn vb_begin(handle: *mut vb_machine) -> vb_answer;

    /// Closes a transaction. The outermost one publishes what is pending, and `other` of the answer is the number of the generation
    /// that is current then.
    pub fn vb_commit(handle: *mut vb_machine) -> vb_answer;

    /// A listener joins a space, and is told what the current generation shows there. `vb_delivery` reads what listeners were told.
    pub fn vb_listen(handle: *mut vb_machine, listener: u32, space: u32, priority: i32) -> vb_answer;

    /// A listener leaves its space, and is told that what the current generation shows there is gone.
    pub fn vb_unlisten(handle: *mut vb_machine, listener: u32) -> vb_answer;

    /// Loads bytes into a region that has bytes, ROM among them, from an offset in it on. No page is marked.
    pub fn vb_load(handle: *mut vb_machine, region: u32, offset: u64, bytes: *const u8, bytes_len: usize) -> vb_answer;

    /// Takes a notifier, 0 to 63: `value` of the answer is what stood in its word, and 0 stands there then. A greater number is
    /// refused.
    pub fn vb_notified(handle: *mut vb_machine, number: u32) -> vb_answer;

    /// Releases the dropped regions that no generation in use names: their memory is free again. `value` of the answer is how many they
    /// are.
    ///
    /// `out` has the numbers of as many of them as there is room for, ascending. Room for as many regions as were dropped is enough. Where
    /// memory runs out nothing is written.
    pub fn vb_reap(handle: *mut vb_machine, out: *mut u32, out_len: usize) -> vb_answer;
}
