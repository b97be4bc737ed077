"""Made by bindings/declare from crates/libvobrekan/src."""
from ctypes import POINTER, c_bool, c_int32, c_size_t, c_uint8, c_uint32, c_uint64, c_void_p

from .bounds import Numbers

VB_DONE = 0  # It is done.
VB_UNKNOWN = 1  # Something that the call names is not there: `what` is its sort, `value` its number.
VB_NAME_TAKEN = 2  # The space or the listener is there already: `what` is its sort, `value` its number.
VB_HAS_CONTAINER = 3  # The region is in the container `value`.
VB_NOT_CHILD = 4  # The region `value` is in another container than the one named, or in none.
VB_ALIAS_PARENT = 5  # `value` is an alias, which takes no children.
VB_LOOP = 6  # `value` would be its own container, or is reached from the region to be placed in it.
VB_TOO_DEEP = 7  # Some region would have the depth `value`, above 32.
VB_TOO_WIDE = 8  # Some region would have the weight `value`, above 65,536.
VB_BAD_SIZE = 9  # The size, or the range of bytes, is not valid.
VB_BAD_OPS = 10  # No device has such access sizes, registers or ioeventfd.
VB_WRONG_KIND = 11  # The region `value` is of another kind than the call is for.
VB_NO_TRANSACTION = 12  # No transaction is open.
VB_TOO_NESTED = 13  # 64 transactions are open.
VB_IN_USE = 14  # The region is used by `value`: `what` is 0 for a region, 1 for a space.
VB_PAGE_OVERLAP = 15  # The translation meets the one at the offset `value`.
VB_BAD_PAGE = 16  # The page of a translation is no power of two, or not aligned to its size.
VB_LIMIT_REACHED = 17  # The count `what` stands at its limit `value`.
VB_NO_BACKING = 18  # No hole of the pool has `value` words.
VB_HELD = 19  # The pass `value` may still use the generation `other`.
VB_EVENT_TAKEN = 20  # The region has this ioeventfd.
VB_MEMORY = 21  # Out of memory.
VB_ARGUMENT = 22  # An argument, `value`, stands for nothing.
VB_NO_MACHINE = 23  # The handle has no machine, desk or virtual CPU.
VB_HAS_MACHINE = 24  # The handle has one.
VB_NO_SCRIPT = 25  # The text is no script: `other` is the number of its first line at fault.
VB_NOT_WHOLE = 26  # Only a part of some word would be replaced, in the generation `other`.
VB_NO_CPU = 27  # All 16 virtual CPUs are handed out.
VB_CONTENDED = 28  # Of a write only the first `value` bytes are written, in the generation `other`: a word was changed each time that it was tried.
VB_NOT_ENTERED = 29  # The virtual CPU is entered in no generation.

VB_SORT_REGION = 0  # A refusal names a region.
VB_SORT_SPACE = 1  # A refusal names an address space.
VB_SORT_LISTENER = 2  # A refusal names a listener.
VB_SORT_WATCHER = 3  # A refusal names a watcher.
VB_SORT_ENTRY = 4  # A refusal names a translation, by its offset.
VB_SORT_EVENT = 5  # A refusal names an ioeventfd, by its offset.
VB_LIMIT_REGIONS = 0  # The regions that are there.
VB_LIMIT_MADE = 1  # The regions that were ever made.
VB_LIMIT_SPACES = 2  # The address spaces.
VB_LIMIT_LISTENERS = 3  # The listeners.
VB_LIMIT_ENTRIES = 4  # The translations of a region.
VB_LIMIT_EVENTS = 5  # The ioeventfds of a region.
VB_LIMIT_CALLS = 6  # The calls of the machine.
VB_LIMIT_WATCHERS = 7  # The watchers.
VB_KIND_CONTAINER = 0  # A container, which only groups its children.
VB_KIND_RAM = 1  # RAM.
VB_KIND_ROM = 2  # ROM.
VB_KIND_ROM_DEVICE = 3  # A ROM device.
VB_KIND_IO = 4  # A device.
VB_KIND_IOMMU = 5  # An IOMMU region.
VB_KIND_ALIAS = 6  # An alias.
VB_KIND_RESERVE = 7  # A reservation.
VB_KIND_HOST = 8  # Host memory.
VB_DEVICE_LATCH = 0  # A latch: a register keeps what is written.
VB_DEVICE_COUNT = 1  # A counter: a read adds one.
VB_DEVICE_BELL = 2  # A bell: a write sets bits, and a read clears them.
VB_DEVICE_FAULT = 3  # A fault: it answers with an error.
VB_DO_BEGIN = 0  # An order: `vb_begin`.
VB_DO_COMMIT = 1  # An order: `vb_commit`.
VB_DO_LISTEN = 2  # An order: `vb_listen`.
VB_DO_UNLISTEN = 3  # An order: `vb_unlisten`.
VB_DO_REGION = 4  # An order: a region of the kind `kind` is made.
VB_DO_SPACE = 5  # An order: `vb_space`.
VB_DO_ADD = 6  # An order: `vb_add`.
VB_DO_DEL = 7  # An order: `vb_del`.
VB_DO_MOVE = 8  # An order: `vb_move`.
VB_DO_RESIZE = 9  # An order: `vb_resize`.
VB_DO_RETARGET = 10  # An order: `vb_retarget`.
VB_DO_ENABLE = 11  # An order: `vb_enable`.
VB_DO_READONLY = 12  # An order: `vb_readonly`.
VB_DO_NONVOLATILE = 13  # An order: `vb_nonvolatile`.
VB_DO_UNMERGEABLE = 14  # An order: `vb_unmergeable`.
VB_DO_ROMD = 15  # An order: `vb_romd`.
VB_DO_LOG = 16  # An order: `vb_log`.
VB_DO_GLOBAL = 17  # An order: `vb_global`.
VB_DO_MAP = 18  # An order: `vb_map`.
VB_DO_UNMAP = 19  # An order: `vb_unmap`.
VB_DO_EVENT = 20  # An order: `vb_event`.
VB_DO_UNEVENT = 21  # An order: `vb_unevent`.
VB_DO_DROP = 22  # An order: `vb_drop`.
VB_CLIENT_DISPLAY = 0  # The client `vga` of a script: a display.
VB_CLIENT_CODE = 1  # The client `code`: translated code.
VB_CLIENT_MIGRATION = 2  # The client `migration`.
VB_PERM_NOTHING = 0  # A translation lets nothing through.
VB_PERM_READ = 1  # A translation lets reads through.
VB_PERM_WRITE = 2  # A translation lets writes through.
VB_PERM_BOTH = 3  # A translation lets reads and writes through.
VB_ACCESS_ERROR = 1  # How an access ended: a device answered with an error.
VB_ACCESS_DECODE = 2  # How an access ended: nothing answered some byte.
VB_ACCESS_BEGUN = 4  # Of a write that was given up: a device has taken the first of the callbacks that come next.
VB_WAY_CHUNKS = 0  # A plan in which each range takes its own bytes.
VB_WAY_QEMU = 1  # A plan by QEMU's rule: a device takes whole pieces, which the end of its range does not cut.
VB_REACHED_MEMORY = 0  # An access reaches memory.
VB_REACHED_CALLBACK = 1  # An access reaches a callback of a device.
VB_REACHED_NOTIFIER = 2  # An access sets a notifier.
VB_REACHED_MARK = 3  # An access marks a page.
VB_REACHED_NOTHING = 4  # Nothing answers.
VB_TOLD_BEGIN = 0  # A listener is told that a change begins.
VB_TOLD_DELETE = 1  # A listener is told that a range is gone.
VB_TOLD_ADD = 2  # A listener is told that a range is there.
VB_TOLD_KEEP = 3  # A listener is told that a range stays.
VB_TOLD_LOG_START = 4  # A listener is told that logging starts.
VB_TOLD_LOG_STOP = 5  # A listener is told that logging stops.
VB_TOLD_EVENT_ADD = 6  # A listener is told that an ioeventfd is there.
VB_TOLD_EVENT_DEL = 7  # A listener is told that an ioeventfd is gone.
VB_TOLD_COMMIT = 8  # A listener is told that the change is whole.


class vb_machine(Numbers):
    """What C keeps of a machine: a pointer, which is null where there is none."""

    _fields_ = [
        ("at", c_void_p),
    ]


class vb_desk(Numbers):
    """What C keeps of the desk of a machine that virtual CPUs share: a pointer, which is null where there is none."""

    _fields_ = [
        ("at", c_void_p),
    ]


class vb_cpu(Numbers):
    """What C keeps of a virtual CPU: a pointer, which is null where there is none."""

    _fields_ = [
        ("at", c_void_p),
    ]


class vb_answer(Numbers):
    """What a call answers: a code, and what it names.

    The code is 0 where it is done. 1 to 20 are the refusals of the machine, numbered as the lines of a script number them, and
    above these stand those of the library itself. A refused call changes nothing of the map. The code 28 alone is no refusal: a write was given up
    after its first bytes."""

    _fields_ = [
        ("code", c_uint32),
        ("what", c_uint32),
        ("value", c_uint64),
        ("other", c_uint64),
    ]


class vb_device(Numbers):
    """A device: what its registers do, how many words of 8 bytes they are, and its access sizes in bytes.

    The kinds are 0 latch, 1 counter, 2 bell and 3 fault."""

    _fields_ = [
        ("kind", c_uint32),
        ("regs", c_uint32),
        ("valid_min", c_uint8),
        ("valid_max", c_uint8),
        ("valid_unaligned", c_bool),
        ("impl_min", c_uint8),
        ("impl_max", c_uint8),
        ("impl_unaligned", c_bool),
        ("big", c_bool),
    ]


class vb_ioevent(Numbers):
    """An ioeventfd: a write of `size` bytes at `offset` in its device sets the notifier `number`, where it is any write or
    writes `value`."""

    _fields_ = [
        ("offset", c_uint64),
        ("value", c_uint64),
        ("number", c_uint32),
        ("size", c_uint8),
        ("matched", c_bool),
    ]


class vb_order(Numbers):
    """What is asked of a desk. `what` says which of the calls of a machine it is, by `VB_DO_..`; each takes the numbers that it names, and the
    others are not looked at."""

    _fields_ = [
        ("offset", c_uint64),
        ("size", c_uint64),
        ("translated", c_uint64),
        ("what", c_uint32),
        ("kind", c_uint32),
        ("region", c_uint32),
        ("other", c_uint32),
        ("space", c_uint32),
        ("listener", c_uint32),
        ("client", c_uint32),
        ("perm", c_uint32),
        ("priority", c_int32),
        ("on", c_bool),
        ("device", vb_device),
        ("event", vb_ioevent),
    ]


class vb_flat_range(Numbers):
    """A range of a view: the addresses `start` to `last` inclusive are answered by a region, from `offset` in it on."""

    _fields_ = [
        ("start", c_uint64),
        ("last", c_uint64),
        ("offset", c_uint64),
        ("region", c_uint32),
        ("log", c_uint8),
        ("readonly", c_bool),
        ("nonvolatile", c_bool),
        ("romd", c_bool),
        ("unmergeable", c_bool),
    ]


class vb_found(Numbers):
    """What an address leads to: the byte of a region, if there is one, and the last address after it that is answered alike."""

    _fields_ = [
        ("last", c_uint64),
        ("offset", c_uint64),
        ("region", c_uint32),
        ("kind", c_uint32),
        ("log", c_uint8),
        ("readonly", c_bool),
        ("nonvolatile", c_bool),
        ("romd", c_bool),
        ("unmergeable", c_bool),
        ("is_there", c_bool),
    ]


class vb_reached(Numbers):
    """One thing that an access reaches. `what` is 0 memory, 1 a callback of a device, 2 a notifier, 3 a mark of a page, 4 nothing. It is
    about `len` bytes of the access, those from byte `at` of it on; a mark is about none."""

    _fields_ = [
        ("offset", c_uint64),
        ("value", c_uint64),
        ("at", c_uint64),
        ("len", c_uint64),
        ("what", c_uint32),
        ("region", c_uint32),
        ("number", c_uint32),
        ("size", c_uint8),
        ("takes", c_bool),
        ("big", c_bool),
    ]


class vb_live_event(Numbers):
    """An ioeventfd as a view shows it. Its address is `distance` bytes from 0: below it where a view shows only the end of its bytes."""

    _fields_ = [
        ("distance", c_uint64),
        ("value", c_uint64),
        ("number", c_uint32),
        ("size", c_uint8),
        ("matched", c_bool),
        ("is_below", c_bool),
    ]


class vb_listener_call(Numbers):
    """One call of a listener. `what` is 0 begin, 1 a range is gone, 2 it is there, 3 it stays, 4 logging starts, 5 logging stops, 6 an
    ioeventfd is there, 7 it is gone, 8 commit."""

    _fields_ = [
        ("what", c_uint32),
        ("listener", c_uint32),
        ("range", vb_flat_range),
        ("event", vb_live_event),
        ("from", c_uint8),
        ("to", c_uint8),
    ]


# each function: its parameters, and its result
FUNCTIONS = {
    "vb_read": ([POINTER(vb_machine), c_uint32, c_uint32, c_uint64, POINTER(c_uint8), c_size_t], vb_answer),
    "vb_write": ([POINTER(vb_machine), c_uint32, c_uint32, c_uint64, POINTER(c_uint8), c_size_t], vb_answer),
    "vb_space": ([POINTER(vb_machine), c_uint32, c_uint32], vb_answer),
    "vb_add": ([POINTER(vb_machine), c_uint32, c_uint64, c_uint32, c_int32], vb_answer),
    "vb_del": ([POINTER(vb_machine), c_uint32, c_uint32], vb_answer),
    "vb_move": ([POINTER(vb_machine), c_uint32, c_uint64], vb_answer),
    "vb_resize": ([POINTER(vb_machine), c_uint32, c_uint64], vb_answer),
    "vb_retarget": ([POINTER(vb_machine), c_uint32, c_uint64], vb_answer),
    "vb_enable": ([POINTER(vb_machine), c_uint32, c_bool], vb_answer),
    "vb_readonly": ([POINTER(vb_machine), c_uint32, c_bool], vb_answer),
    "vb_nonvolatile": ([POINTER(vb_machine), c_uint32, c_bool], vb_answer),
    "vb_unmergeable": ([POINTER(vb_machine), c_uint32, c_bool], vb_answer),
    "vb_romd": ([POINTER(vb_machine), c_uint32, c_bool], vb_answer),
    "vb_log": ([POINTER(vb_machine), c_uint32, c_uint32, c_bool], vb_answer),
    "vb_global": ([POINTER(vb_machine), c_bool], vb_answer),
    "vb_map": ([POINTER(vb_machine), c_uint32, c_uint64, c_uint64, c_uint32, c_uint64, c_uint32], vb_answer),
    "vb_unmap": ([POINTER(vb_machine), c_uint32, c_uint64], vb_answer),
    "vb_event": ([POINTER(vb_machine), c_uint32, POINTER(vb_ioevent)], vb_answer),
    "vb_unevent": ([POINTER(vb_machine), c_uint32, POINTER(vb_ioevent)], vb_answer),
    "vb_drop": ([POINTER(vb_machine), c_uint32], vb_answer),
    "vb_cpu_enter": ([POINTER(vb_cpu)], vb_answer),
    "vb_cpu_leave": ([POINTER(vb_cpu)], vb_answer),
    "vb_cpu_read": ([POINTER(vb_cpu), c_uint32, c_uint64, POINTER(c_uint8), c_size_t], vb_answer),
    "vb_cpu_write8": ([POINTER(vb_cpu), c_uint32, c_uint64, c_uint64], vb_answer),
    "vb_cpu_write": ([POINTER(vb_cpu), c_uint32, c_uint64, POINTER(c_uint8), c_size_t, c_uint32], vb_answer),
    "vb_cpu_free": ([POINTER(vb_cpu)], None),
    "vb_delivery": ([POINTER(vb_machine), c_size_t, POINTER(vb_listener_call)], vb_answer),
    "vb_desk_new": ([POINTER(vb_desk), c_size_t], vb_answer),
    "vb_desk_free": ([POINTER(vb_desk)], None),
    "vb_desk_ask": ([POINTER(vb_desk), POINTER(vb_order)], vb_answer),
    "vb_desk_cpu": ([POINTER(vb_desk), POINTER(vb_cpu)], vb_answer),
    "vb_desk_notified": ([POINTER(vb_desk), c_uint32], vb_answer),
    "vb_desk_reap": ([POINTER(vb_desk), POINTER(c_uint32), c_size_t], vb_answer),
    "vb_desk_harvest": ([POINTER(vb_desk), c_uint32, c_uint32, POINTER(c_uint64), c_size_t], vb_answer),
    "vb_desk_find": ([POINTER(vb_desk), c_uint32, c_uint64, POINTER(vb_found)], vb_answer),
    "vb_desk_range": ([POINTER(vb_desk), c_uint32, c_size_t, POINTER(vb_flat_range)], vb_answer),
    "vb_desk_delivery": ([POINTER(vb_desk), c_size_t, POINTER(vb_listener_call)], vb_answer),
    "vb_cpu_plan_read": ([POINTER(vb_cpu), c_uint32, c_uint32, c_uint64, c_size_t, POINTER(vb_reached), c_size_t], vb_answer),
    "vb_cpu_plan_write": ([POINTER(vb_cpu), c_uint32, c_uint32, c_uint64, POINTER(c_uint8), c_size_t, POINTER(vb_reached), c_size_t], vb_answer),
    "vb_cpu_find": ([POINTER(vb_cpu), c_uint32, c_uint64, POINTER(vb_found)], vb_answer),
    "vb_cpu_range": ([POINTER(vb_cpu), c_uint32, c_size_t, POINTER(vb_flat_range)], vb_answer),
    "vb_cpu_path": ([POINTER(vb_cpu), c_uint32, c_uint64, POINTER(c_uint32), c_size_t], vb_answer),
    "vb_forget": ([POINTER(vb_machine), c_size_t], vb_answer),
    "vb_desk_forget": ([POINTER(vb_desk), c_size_t], vb_answer),
    "vb_harvest": ([POINTER(vb_machine), c_uint32, c_uint32, POINTER(c_uint64), c_size_t], vb_answer),
    "vb_path": ([POINTER(vb_machine), c_uint32, c_uint64, POINTER(c_uint32), c_size_t], vb_answer),
    "vb_plan_read": ([POINTER(vb_machine), c_uint32, c_uint32, c_uint64, c_size_t, POINTER(vb_reached), c_size_t], vb_answer),
    "vb_plan_write": ([POINTER(vb_machine), c_uint32, c_uint32, c_uint64, POINTER(c_uint8), c_size_t, POINTER(vb_reached), c_size_t], vb_answer),
    "vb_container": ([POINTER(vb_machine), c_uint64], vb_answer),
    "vb_ram": ([POINTER(vb_machine), c_uint64], vb_answer),
    "vb_rom": ([POINTER(vb_machine), c_uint64], vb_answer),
    "vb_host": ([POINTER(vb_machine), c_uint64], vb_answer),
    "vb_iommu": ([POINTER(vb_machine), c_uint64], vb_answer),
    "vb_reserve": ([POINTER(vb_machine), c_uint64], vb_answer),
    "vb_alias": ([POINTER(vb_machine), c_uint64, c_uint32, c_uint64], vb_answer),
    "vb_io": ([POINTER(vb_machine), c_uint64, POINTER(vb_device)], vb_answer),
    "vb_rom_device": ([POINTER(vb_machine), c_uint64, POINTER(vb_device)], vb_answer),
    "vb_run": ([POINTER(c_uint8), c_size_t, POINTER(c_uint8), c_size_t], vb_answer),
    "vb_range": ([POINTER(vb_machine), c_uint32, c_size_t, POINTER(vb_flat_range)], vb_answer),
    "vb_find": ([POINTER(vb_machine), c_uint32, c_uint64, POINTER(vb_found)], vb_answer),
    "vb_print": ([POINTER(vb_answer), POINTER(c_uint8), c_size_t, POINTER(c_size_t)], c_uint32),
    "vb_new": ([POINTER(vb_machine), c_size_t], vb_answer),
    "vb_free": ([POINTER(vb_machine)], None),
    "vb_begin": ([POINTER(vb_machine)], vb_answer),
    "vb_commit": ([POINTER(vb_machine)], vb_answer),
    "vb_listen": ([POINTER(vb_machine), c_uint32, c_uint32, c_int32], vb_answer),
    "vb_unlisten": ([POINTER(vb_machine), c_uint32], vb_answer),
    "vb_load": ([POINTER(vb_machine), c_uint32, c_uint64, POINTER(c_uint8), c_size_t], vb_answer),
    "vb_notified": ([POINTER(vb_machine), c_uint32], vb_answer),
    "vb_reap": ([POINTER(vb_machine), POINTER(c_uint32), c_size_t], vb_answer),
}
