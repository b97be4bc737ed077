"""QEMU's guest memory model as proved software: a thin wrapper of libvobrekan over ctypes, for notebooks and tests.

>>> import vobrekan
>>> machine = vobrekan.Machine(1 << 16)
>>> with machine:  # a transaction: what is changed in it is published at its end
...     board, ram = machine.container(), machine.ram(0x2000)
...     _ = machine.space(0, board), machine.add(board, 0x1000, ram)
>>> found = machine.find(0, 0x1010)
>>> (found.region == ram, hex(found.offset))
(True, '0x10')

The library is libvobrekan.so of the folder VOBREKAN_LIB, where that is set; else the one beside this module, which a wheel has; else the one that
bindings/build makes. Each method of Machine is one call of the library, by the same name without `vb_`; a refused call raises Refused, and changes
nothing of the map. Numbers of kinds, clients and so on are in `vobrekan.declarations`, as `VB_CLIENT_DISPLAY`. A number that its parameter or its
field does not hold is a ValueError, before anything is called.

Several threads may use one machine: a call of the library keeps the interpreter's lock, so one works at a time. What takes several calls (`view`, `told`,
`harvest`, `drop` with `reap`, a transaction) is no single step, so threads that share a machine put a lock of their own around it. Virtual CPUs work
beside one another in C and Rust; here they take turns.
"""
from __future__ import annotations

import array
import ctypes
import os
import sys
from types import SimpleNamespace, TracebackType
from typing import Any, Callable, Union

from . import declarations as c
from .bounds import checked, in_range
from .declarations import (
    vb_device as Device,
    vb_flat_range as FlatRange,
    vb_found as Found,
    vb_ioevent as Ioevent,
    vb_listener_call as ListenerCall,
    vb_reached as Reached,
)

__version__ = "0.1.0"
__all__ = ["WHOLE", "Cpu", "Desk", "Device", "FlatRange", "Found", "Ioevent", "ListenerCall", "Machine", "Reached", "Refused", "declarations", "run"]

declarations = c
HERE = os.path.dirname(os.path.abspath(__file__))

# The size that stands for 2^64 bytes.
WHOLE = 2**64 - 1

# The most words of marks that a region of the machine's own memory has: it is at most the pool, 2^29 bytes, with a bit for each page of 4,096.
MOST_MARKS = 2**29 // 4096 // 64

# Bytes to be written: of items that are wider than a byte, all bytes of each, as they lie in memory.
Bytes = Union[bytes, bytearray, memoryview, "array.array[Any]"]


def folder() -> str:
    """The folder with libvobrekan.so."""
    if named := os.environ.get("VOBREKAN_LIB"):
        return named
    return HERE if os.path.exists(os.path.join(HERE, "libvobrekan.so")) else os.path.join(HERE, "..", "..", "out")


def loaded() -> SimpleNamespace:
    """The calls of the library, each with its types. A call keeps the interpreter's lock (PyDLL): the library takes one at a time on a handle."""
    library, calls = ctypes.PyDLL(os.path.join(folder(), "libvobrekan.so")), SimpleNamespace()
    for name, (parameters, result) in c.FUNCTIONS.items():
        function = getattr(library, name)
        function.argtypes, function.restype = parameters, result
        setattr(calls, name, checked(name, function, parameters))
    return calls


LIBRARY = loaded()


def said(answer: c.vb_answer) -> str:
    """What an answer says to a person."""
    out, whole = (ctypes.c_uint8 * 256)(), ctypes.c_size_t()
    if LIBRARY.vb_print(answer, out, len(out), whole):
        return "out of memory"
    return bytes(out[: whole.value]).decode("ascii")


class Refused(Exception):
    """A refusal.

    `code` says why (`VB_HAS_CONTAINER` and so on, whose end is `name`), `what` which sort of thing `value` is where there may be several, `value` what it
    names, and `other` a generation, where it has one.

    >>> machine = Machine(64)
    >>> try:
    ...     machine.enable(9)
    ... except Refused as refused:
    ...     print(refused.name, refused.value)
    UNKNOWN 9
    """

    code: int
    what: int
    value: int
    other: int

    def __init__(self, answer: c.vb_answer) -> None:
        self.code, self.what, self.value, self.other = answer.code, answer.what, answer.value, answer.other
        super().__init__(said(answer))

    def __reduce__(self) -> tuple[Any, ...]:
        return Refused, (c.vb_answer(self.code, self.what, self.value, self.other),), self.__dict__

    @property
    def name(self) -> str:
        """The name of the code, without `VB_`."""
        return CODES.get(self.code, str(self.code))


# The names of the codes, which are the first declarations.
CODES: dict[int, str] = {}
for _name, _number in vars(c).items():
    if _name.startswith("VB_") and _number == len(CODES):
        CODES[_number] = _name[3:]
    elif CODES:
        break


def accepted(answer: c.vb_answer) -> c.vb_answer:
    """The answer, where the call is not refused."""
    if answer.code != c.VB_DONE:
        raise Refused(answer)
    return answer


def published(answer: c.vb_answer) -> int | None:
    """The number of the generation that a call published, if it did."""
    return accepted(answer).other or None


def given_as(data: Bytes) -> tuple[ctypes.Array[ctypes.c_uint8], int]:
    """Bytes as the library takes them, and how many they are: of none it looks at none, and the place of one is there."""
    given = memoryview(data).tobytes()
    return (ctypes.c_uint8 * max(len(given), 1)).from_buffer_copy(given or b"\0"), len(given)


def room_for(count: int) -> ctypes.Array[ctypes.c_uint8]:
    """Room for so many bytes, which are read; for one, where they are none."""
    return (ctypes.c_uint8 * max(in_range("count", count, 0, sys.maxsize), 1))()


def run(script: Bytes) -> tuple[bytes, int | None]:
    """What the run of a script writes, and the number of the first line at fault of a text that is no script, else None.

    >>> run(b"region r container 4K\\nspace s r\\nshow s\\n")
    (b'view s g1\\n', None)
    """
    given, length = given_as(script)
    room = 1 << 16
    while True:
        out = (ctypes.c_uint8 * room)()
        answer: c.vb_answer = LIBRARY.vb_run(given, length, out, room)
        fault = answer.other if answer.code == c.VB_NO_SCRIPT else None
        if fault is None:
            accepted(answer)
        if answer.value <= room:
            return bytes(out[: answer.value]), fault
        room = answer.value


def ranges_in(ask: Callable[[int, FlatRange], Any]) -> list[FlatRange]:
    """All ranges of a view."""
    ranges: list[FlatRange] = []
    while True:
        it = c.vb_flat_range()
        if len(ranges) >= accepted(ask(len(ranges), it)).value:
            return ranges
        ranges.append(it)


def calls_in(owner: Machine | Desk, start: int, delivery: Callable[[int, ListenerCall], Any]) -> list[ListenerCall]:
    """The calls that listeners got from an index on. The first of those that are not forgotten has the index 0 in the library."""
    if start < owner.forgotten:
        raise IndexError(f"what listeners were told is forgotten up to {owner.forgotten}")
    calls: list[ListenerCall] = []
    first = start - owner.forgotten
    while True:
        it = c.vb_listener_call()
        if first + len(calls) >= accepted(delivery(first + len(calls), it)).value:
            return calls
        calls.append(it)


def regions_in(owner: Machine | Desk, reap: Callable[[Any], Any]) -> list[int]:
    """What a reap releases, of as many regions as were dropped."""
    out = (ctypes.c_uint32 * max(owner.dropped, 1))()
    count = accepted(reap(out)).value
    owner.dropped -= count
    return list(out[:count])


def pages_in(region: int, client: int, harvest: Callable[[Any, int], Any]) -> list[int]:
    """The pages that a harvest tells. It is asked for the room first: without any it says how much it takes.

    A region that takes more room than the machine's own memory can is none of it. It is refused as such, which the library says once it has the room."""
    room = 0
    while True:
        out = (ctypes.c_uint64 * max(room, 1))()
        answer = harvest(out, room)
        is_short = answer.code == c.VB_ARGUMENT and client <= c.VB_CLIENT_MIGRATION and answer.value > room
        if is_short and answer.value > MOST_MARKS:
            raise Refused(c.vb_answer(code=c.VB_WRONG_KIND, value=region))
        if is_short:
            room = answer.value
            continue
        accepted(answer)
        return [64 * i + b for i in range(room) for b in range(64) if out[i] >> b & 1]


class Machine:
    """A machine over a pool of this many words of 8 bytes, at most 2^26.

    `with machine:` is a transaction: what is changed in it is published at its end, also where an error ends it, and `last` is then the number of the
    generation that was published, if one was. Where the publish is refused, `Refused` is raised, but where an error ended it that one goes on; the
    transaction is then open until `close_transactions`. `close` frees the machine, and `with contextlib.closing(Machine(words)) as machine:` calls it at its end.

    >>> machine = Machine(1 << 10)
    >>> with machine:
    ...     _ = machine.space(0, machine.container())
    >>> machine.last
    1
    """

    last: int | None

    def __init__(self, words: int) -> None:
        self.handle, self.dropped, self.forgotten, self.left_open = c.vb_machine(), 0, 0, 0
        self.last = None
        accepted(LIBRARY.vb_new(self.handle, words))

    def close(self) -> None:
        """Frees the machine: what is called on it then is refused with the code VB_NO_MACHINE."""
        LIBRARY.vb_free(self.handle)

    def __del__(self) -> None:
        if hasattr(self, "handle"):
            self.close()

    def __enter__(self) -> Machine:
        """A transaction: what is changed in it is published at its end, also where an error ends it."""
        accepted(LIBRARY.vb_begin(self.handle))
        return self

    def __exit__(self, kind: type[BaseException] | None = None, error: BaseException | None = None, trace: TracebackType | None = None) -> None:
        self.left_open += 1
        try:
            self.last = self.close_transactions()
        except Refused as refused:
            self.last = None
            if error is None:
                raise
            if hasattr(error, "add_note"):
                error.add_note(f"and the transaction is still open: {refused}")

    def close_transactions(self) -> int | None:
        """Closes the transactions that have ended and are still open, since the commit at their end was refused, as where memory runs out. It answers the
        number of the generation that was published, if one was. The end of a later transaction does it too."""
        last = None
        while self.left_open:
            answer = LIBRARY.vb_commit(self.handle)
            if answer.code == c.VB_NO_TRANSACTION:
                self.left_open = 0
            last = published(answer)
            self.left_open -= 1
        return last

    # Regions: each answers the number of the region that it made.

    def container(self, size: int = WHOLE) -> int:
        """Makes a container, and answers its number."""
        return accepted(LIBRARY.vb_container(self.handle, size)).value

    def ram(self, size: int) -> int:
        """Makes RAM of this many bytes, whole pages of 4,096."""
        return accepted(LIBRARY.vb_ram(self.handle, size)).value

    def rom(self, size: int) -> int:
        """Makes ROM; its bytes are loaded."""
        return accepted(LIBRARY.vb_rom(self.handle, size)).value

    def host(self, size: int) -> int:
        """Makes memory whose bytes the caller keeps."""
        return accepted(LIBRARY.vb_host(self.handle, size)).value

    def iommu(self, size: int) -> int:
        """Makes an IOMMU region."""
        return accepted(LIBRARY.vb_iommu(self.handle, size)).value

    def reserve(self, size: int) -> int:
        """Claims a range that has no callbacks."""
        return accepted(LIBRARY.vb_reserve(self.handle, size)).value

    def alias(self, size: int, target: int, offset: int) -> int:
        """Makes a window on another region, from this offset in it on."""
        return accepted(LIBRARY.vb_alias(self.handle, size, target, offset)).value

    def io(self, size: int, device: Device) -> int:
        """Makes a device."""
        return accepted(LIBRARY.vb_io(self.handle, size, device)).value

    def rom_device(self, size: int, device: Device) -> int:
        """Makes a ROM device."""
        return accepted(LIBRARY.vb_rom_device(self.handle, size, device)).value

    # Changes: each answers the number of the generation that it published, if it did.

    def space(self, space: int, root: int) -> int | None:
        """Makes an address space, by a number of the caller's, with this root."""
        return published(LIBRARY.vb_space(self.handle, space, root))

    def add(self, parent: int, offset: int, child: int, priority: int = 0) -> int | None:
        """Places a region in a container."""
        return published(LIBRARY.vb_add(self.handle, parent, offset, child, priority))

    def delete(self, parent: int, child: int) -> int | None:
        """Takes a region out of its container."""
        return published(LIBRARY.vb_del(self.handle, parent, child))

    def move(self, child: int, offset: int) -> int | None:
        """Moves a region in its container."""
        return published(LIBRARY.vb_move(self.handle, child, offset))

    def resize(self, region: int, size: int) -> int | None:
        """Gives a region another size: any region but memory."""
        return published(LIBRARY.vb_resize(self.handle, region, size))

    def retarget(self, alias: int, offset: int) -> int | None:
        """Moves the window of an alias in its target."""
        return published(LIBRARY.vb_retarget(self.handle, alias, offset))

    def enable(self, region: int, on: bool = True) -> int | None:
        """Switches a region on or off."""
        return published(LIBRARY.vb_enable(self.handle, region, on))

    def readonly(self, region: int, on: bool = True) -> int | None:
        """Switches whether what is found through the region is read-only."""
        return published(LIBRARY.vb_readonly(self.handle, region, on))

    def nonvolatile(self, region: int, on: bool = True) -> int | None:
        """Switches whether what is found through the region is non-volatile."""
        return published(LIBRARY.vb_nonvolatile(self.handle, region, on))

    def unmergeable(self, region: int, on: bool = True) -> int | None:
        """Switches whether ranges that are found through the region end where the path to their leaf changes."""
        return published(LIBRARY.vb_unmergeable(self.handle, region, on))

    def romd(self, region: int, on: bool = True) -> int | None:
        """Switches the mode of a ROM device."""
        return published(LIBRARY.vb_romd(self.handle, region, on))

    def log(self, region: int, client: int, on: bool = True) -> int | None:
        """Switches the logging of a region for one client."""
        return published(LIBRARY.vb_log(self.handle, region, client, on))

    def global_log(self, on: bool = True) -> int | None:
        """Switches global logging."""
        return published(LIBRARY.vb_global(self.handle, on))

    def map(self, region: int, iova: int, size: int, space: int, translated: int, perm: int = c.VB_PERM_BOTH) -> int | None:
        """Puts a translation into the table of an IOMMU region: the page at `iova` goes on at an address of a space."""
        return published(LIBRARY.vb_map(self.handle, region, iova, size, space, translated, perm))

    def unmap(self, region: int, iova: int) -> int | None:
        """Takes a translation out."""
        return published(LIBRARY.vb_unmap(self.handle, region, iova))

    def event(self, region: int, event: Ioevent) -> int | None:
        """Gives a device an ioeventfd."""
        return published(LIBRARY.vb_event(self.handle, region, event))

    def unevent(self, region: int, event: Ioevent) -> int | None:
        """Takes an ioeventfd away."""
        return published(LIBRARY.vb_unevent(self.handle, region, event))

    def drop(self, region: int) -> None:
        """Drops a region that nothing uses; `reap` gives its memory back."""
        accepted(LIBRARY.vb_drop(self.handle, region))
        self.dropped += 1

    def reap(self) -> list[int]:
        """The dropped regions that are released, ascending."""
        return regions_in(self, lambda out: LIBRARY.vb_reap(self.handle, out, len(out)))

    def harvest(self, region: int, client: int) -> list[int]:
        """The pages of a region that were written since they were last taken for this client, ascending."""
        return pages_in(region, client, lambda out, room: LIBRARY.vb_harvest(self.handle, region, client, out, room))

    # What it shows.

    def find(self, space: int, addr: int) -> Found:
        """What an address leads to. A space that is made in an open transaction is unknown until that is published."""
        found = c.vb_found()
        accepted(LIBRARY.vb_find(self.handle, space, addr, found))
        return found

    def path(self, space: int, addr: int) -> list[int]:
        """The regions that a search passes on the way to the one that answers an address."""
        out = (ctypes.c_uint32 * 32)()
        return list(out[: accepted(LIBRARY.vb_path(self.handle, space, addr, out, len(out))).value])

    def view(self, space: int) -> list[FlatRange]:
        """The ranges of the view of a space, by ascending address."""
        return ranges_in(lambda index, it: LIBRARY.vb_range(self.handle, space, index, it))

    def listen(self, listener: int, space: int, priority: int = 0) -> None:
        """A listener joins a space: `told` has what it is told."""
        accepted(LIBRARY.vb_listen(self.handle, listener, space, priority))

    def unlisten(self, listener: int) -> None:
        """A listener leaves its space."""
        accepted(LIBRARY.vb_unlisten(self.handle, listener))

    def told(self, start: int = 0) -> list[ListenerCall]:
        """The calls that listeners got from this index on, counted from the first that was ever made. An IndexError where the call at
        this index is forgotten. A call's `range` is told with VB_TOLD_DELETE, _ADD, _KEEP, _LOG_START and _LOG_STOP, `from` and `to` with the last two,
        `event` with VB_TOLD_EVENT_ADD and _EVENT_DEL; what is not told is 0."""
        return calls_in(self, start, lambda index, it: LIBRARY.vb_delivery(self.handle, index, it))

    def forget(self, until: int) -> None:
        """Forgets the calls of listeners before this index, counted from the first that was ever made; the others keep their indices."""
        self.forgotten += accepted(LIBRARY.vb_forget(self.handle, max(until - self.forgotten, 0))).value

    # Accesses.

    def read(self, space: int, addr: int, count: int, by: int = 0) -> tuple[bytes, int]:
        """Bytes of a space, and how the access ended: 1 a device's error, 2 nothing there, 3 both, 0 neither. Where no such space is published, nothing is
        there."""
        out = room_for(count)
        answer = accepted(LIBRARY.vb_read(self.handle, by, space, addr, out, count))
        return bytes(out[:count]), answer.what

    def write(self, space: int, addr: int, data: Bytes, by: int = 0) -> int:
        """Writes bytes to a space, and answers how the access ended."""
        given, length = given_as(data)
        return accepted(LIBRARY.vb_write(self.handle, by, space, addr, given, length)).what

    def plan_read(self, space: int, addr: int, count: int, way: int = c.VB_WAY_CHUNKS) -> list[Reached]:
        """What a read reaches, in order, for a caller that has the memory and the devices itself."""
        return self.plan(lambda out: LIBRARY.vb_plan_read(self.handle, way, space, addr, count, out, len(out)))

    def plan_write(self, space: int, addr: int, data: Bytes, way: int = c.VB_WAY_CHUNKS) -> list[Reached]:
        """What a write reaches, in order."""
        given, length = given_as(data)
        return self.plan(lambda out: LIBRARY.vb_plan_write(self.handle, way, space, addr, given, length, out, len(out)))

    @staticmethod
    def plan(ask: Callable[[Any], Any]) -> list[Reached]:
        count = 8
        while True:
            out = (c.vb_reached * count)()
            whole = accepted(ask(out)).value
            if whole <= count:
                return list(out[:whole])
            count = whole

    def load(self, region: int, offset: int, data: Bytes) -> None:
        """Loads bytes into a region that has bytes, ROM among them."""
        given, length = given_as(data)
        accepted(LIBRARY.vb_load(self.handle, region, offset, given, length))

    def notified(self, number: int) -> bool:
        """Takes a notifier, 0 to 63: whether a write has set it since it was last taken."""
        return accepted(LIBRARY.vb_notified(self.handle, number)).value != 0


class Desk:
    """The desk of a machine that virtual CPUs share, over a pool of this many words of 8 bytes: the map is changed here, beside them.

    `ask` takes the numbers of an order by the names of the fields of `vb_order`, as `ask(c.VB_DO_MOVE, region=3, offset=0x1000)`, and
    answers its answer: `value` is the region that was made, `other` the generation that was published. `with Desk(words) as desk:` frees it at its end,
    as `close` does; virtual CPUs that it handed out stay.

    >>> with Desk(1 << 16) as desk:
    ...     board, ram = desk.region(c.VB_KIND_CONTAINER), desk.region(c.VB_KIND_RAM, 0x2000)
    ...     _ = desk.ask(c.VB_DO_SPACE, space=0, other=board), desk.ask(c.VB_DO_ADD, region=board, offset=0, other=ram)
    ...     with desk.cpu() as cpu:
    ...         cpu.write8(0, 0x100, 42), cpu.read(0, 0x100, 1)
    (0, (b'*', 0))
    """

    def __init__(self, words: int) -> None:
        self.handle, self.dropped, self.forgotten = c.vb_desk(), 0, 0
        accepted(LIBRARY.vb_desk_new(self.handle, words))

    def close(self) -> None:
        """Frees the desk: what is called on it then is refused with the code VB_NO_MACHINE."""
        LIBRARY.vb_desk_free(self.handle)

    def __del__(self) -> None:
        if hasattr(self, "handle"):
            self.close()

    def __enter__(self) -> Desk:
        return self

    def __exit__(self, kind: type[BaseException] | None = None, error: BaseException | None = None, trace: TracebackType | None = None) -> None:
        self.close()

    def ask(self, what: int, **numbers: Any) -> c.vb_answer:
        """Asks for something, and answers the answer."""
        answer = accepted(LIBRARY.vb_desk_ask(self.handle, c.vb_order(what=what, **numbers)))
        self.dropped += what == c.VB_DO_DROP
        return answer

    def region(self, kind: int, size: int = WHOLE, **numbers: Any) -> int:
        """Makes a region of a kind, as VB_KIND_RAM, and answers its number."""
        return self.ask(c.VB_DO_REGION, kind=kind, size=size, **numbers).value

    def cpu(self) -> Cpu:
        """A virtual CPU, which has seen all that the desk has done. There are 16."""
        return Cpu(self)

    def reap(self) -> list[int]:
        """The dropped regions that are released, ascending."""
        return regions_in(self, lambda out: LIBRARY.vb_desk_reap(self.handle, out, len(out)))

    def harvest(self, region: int, client: int) -> list[int]:
        """The pages of a region that were written since they were last taken for this client, ascending."""
        return pages_in(region, client, lambda out, room: LIBRARY.vb_desk_harvest(self.handle, region, client, out, room))

    def notified(self, number: int) -> bool:
        """Takes a notifier, 0 to 63: whether a write has set it since it was last taken."""
        return accepted(LIBRARY.vb_desk_notified(self.handle, number)).value != 0

    def find(self, space: int, addr: int) -> Found:
        """What an address leads to in the current generation."""
        found = c.vb_found()
        accepted(LIBRARY.vb_desk_find(self.handle, space, addr, found))
        return found

    def view(self, space: int) -> list[FlatRange]:
        """The ranges of the current view of a space, by ascending address."""
        return ranges_in(lambda index, it: LIBRARY.vb_desk_range(self.handle, space, index, it))

    def told(self, start: int = 0) -> list[ListenerCall]:
        """The calls that listeners got from this index on, as `Machine.told` answers them."""
        return calls_in(self, start, lambda index, it: LIBRARY.vb_desk_delivery(self.handle, index, it))

    def forget(self, until: int) -> None:
        """Forgets the calls of listeners before this index, as `Machine.forget` does."""
        self.forgotten += accepted(LIBRARY.vb_desk_forget(self.handle, max(until - self.forgotten, 0))).value


class Cpu:
    """A virtual CPU of a desk. It never waits, and may outlive the desk. `with desk.cpu() as cpu:` frees it at its end, as `close` does; its number is not
    handed out again."""

    def __init__(self, desk: Desk) -> None:
        self.handle = c.vb_cpu()
        accepted(LIBRARY.vb_desk_cpu(desk.handle, self.handle))

    def close(self) -> None:
        """Leaves where it is entered, and frees the virtual CPU: what is called on it then is refused with the code VB_NO_MACHINE."""
        LIBRARY.vb_cpu_free(self.handle)

    def __del__(self) -> None:
        if hasattr(self, "handle"):
            self.close()

    def __enter__(self) -> Cpu:
        return self

    def __exit__(self, kind: type[BaseException] | None = None, error: BaseException | None = None, trace: TracebackType | None = None) -> None:
        self.close()

    def enter(self) -> int:
        """Enters the current generation, and answers its number."""
        return accepted(LIBRARY.vb_cpu_enter(self.handle)).other

    def leave(self) -> None:
        """Leaves the generation that it is entered in; where it is in none, it does nothing."""
        accepted(LIBRARY.vb_cpu_leave(self.handle))

    def read(self, space: int, addr: int, count: int) -> tuple[bytes, int]:
        """Bytes of a space, and how the access ended, as `Machine.read` answers them."""
        out = room_for(count)
        answer = accepted(LIBRARY.vb_cpu_read(self.handle, space, addr, out, count))
        return bytes(out[:count]), answer.what

    def write(self, space: int, addr: int, data: Bytes, tries: int = 64) -> tuple[int, int]:
        """Writes bytes, and answers how many of the first are written, and how that ended: each part of a word is tried this many times."""
        given, length = given_as(data)
        answer = LIBRARY.vb_cpu_write(self.handle, space, addr, given, length, tries)
        if answer.code == c.VB_CONTENDED:
            return answer.value, answer.what
        return length, accepted(answer).what

    def write8(self, space: int, addr: int, value: int) -> int:
        """Writes the eight bytes of a number, the lowest first. It is refused where only a part of some word would be replaced."""
        return accepted(LIBRARY.vb_cpu_write8(self.handle, space, addr, value)).what

    def plan_read(self, space: int, addr: int, count: int, way: int = c.VB_WAY_CHUNKS) -> list[Reached]:
        """What a read reaches in the generation that it is entered in, in order, without a lock. No region that is named is released before the virtual
        CPU leaves. Refused with the code VB_NOT_ENTERED where it is entered in none, as `plan_write`, `find`, `path` and `view` are."""
        return Machine.plan(lambda out: LIBRARY.vb_cpu_plan_read(self.handle, way, space, addr, count, out, len(out)))

    def plan_write(self, space: int, addr: int, data: Bytes, way: int = c.VB_WAY_CHUNKS) -> list[Reached]:
        """What a write reaches in the generation that it is entered in, in order."""
        given, length = given_as(data)
        return Machine.plan(lambda out: LIBRARY.vb_cpu_plan_write(self.handle, way, space, addr, given, length, out, len(out)))

    def find(self, space: int, addr: int) -> Found:
        """What an address leads to in the generation that it is entered in."""
        found = c.vb_found()
        accepted(LIBRARY.vb_cpu_find(self.handle, space, addr, found))
        return found

    def path(self, space: int, addr: int) -> list[int]:
        """The regions that a search passes on the way to the one that answers an address, in the generation that it is entered in."""
        out = (ctypes.c_uint32 * 32)()
        return list(out[: accepted(LIBRARY.vb_cpu_path(self.handle, space, addr, out, len(out))).value])

    def view(self, space: int) -> list[FlatRange]:
        """The ranges of the view of a space in the generation that it is entered in, by ascending address."""
        return ranges_in(lambda index, it: LIBRARY.vb_cpu_range(self.handle, space, index, it))
