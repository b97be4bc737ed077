"""A machine through the module for Python."""
import contextlib
import doctest
import os
import sys
import unittest

sys.path.insert(0, os.path.join(os.path.dirname(os.path.abspath(__file__)), ".."))
import vobrekan  # noqa: E402
from vobrekan import Desk, Device, Ioevent, Machine, Refused, WHOLE, run  # noqa: E402
from vobrekan import declarations as c  # noqa: E402

LATCH = Device(kind=c.VB_DEVICE_LATCH, regs=1, valid_min=1, valid_max=4, impl_min=1, impl_max=4)
SPACE = 1
KINDS = ["container", "ram", "rom", "romdev", "io", "iommu", "alias", "reserve", "host"]
MACHINES = os.path.join(os.path.dirname(os.path.abspath(__file__)), "..", "..", "..", "examples", "machines")


def small():
    """Memory below with a device over it, and a ROM at the top."""
    machine = Machine(1 << 14)
    with machine:
        system, ram, rom, uart = machine.container(), machine.ram(0x4000), machine.rom(0x1000), machine.io(0x100, LATCH)
        machine.space(SPACE, system)
        machine.add(system, 0, ram)
        machine.add(system, 0x1000, uart, 1)
        machine.add(system, 0xFFFF_F000, rom)
    return machine, system, ram, rom, uart


class Driver:
    """Does the commands of a script by calls of a machine, as far as the scripts of examples/machines use them."""

    MAKES = {"container": Machine.container, "ram": Machine.ram, "rom": Machine.rom}

    def __init__(self):
        self.machine, self.regions, self.spaces, self.shown = None, {}, {}, []

    def done(self, script):
        """The words of the lines that its commands write."""
        for line in script.splitlines():
            words = line.split("#")[0].split()
            if words:
                getattr(self, "do_" + words[0])(*words[1:])
        return self.shown

    def do_machine(self, size):
        self.machine = Machine(int(size, 0) // 8)

    def do_region(self, name, kind, size, *rest):
        size = min(int(size, 0), WHOLE)
        device = Device(kind=c.VB_DEVICE_LATCH, regs=1, valid_min=1, valid_max=8, impl_min=1, impl_max=8)
        if kind == "alias":
            self.regions[name] = self.machine.alias(size, self.regions[rest[0]], int(rest[1], 0))
        elif kind in self.MAKES:
            self.regions[name] = self.MAKES[kind](self.machine, size)
        else:
            self.regions[name] = (self.machine.io if kind == "io" else self.machine.rom_device)(size, device)

    def do_space(self, name, root):
        self.spaces[name] = len(self.spaces)
        self.machine.space(self.spaces[name], self.regions[root])

    def do_add(self, parent, offset, child, *priority):
        self.machine.add(self.regions[parent], int(offset, 0), self.regions[child], int(priority[1]) if priority else 0)

    def do_del(self, parent, child):
        self.machine.delete(self.regions[parent], self.regions[child])

    def do_move(self, region, offset):
        self.machine.move(self.regions[region], int(offset, 0))

    def do_disable(self, region):
        self.machine.enable(self.regions[region], False)

    def do_readonly(self, region, on):
        self.machine.readonly(self.regions[region], on == "on")

    def do_log(self, region, client, on):
        self.machine.log(self.regions[region], {"vga": 0, "code": 1, "migration": 2}[client], on == "on")

    def do_begin(self):
        self.machine.__enter__()

    def do_commit(self):
        self.machine.__exit__()

    def do_v0(self, what, space, addr, data):
        if what == "write":
            self.machine.write(self.spaces[space], int(addr, 0), bytes.fromhex(data))
        else:
            out, how = self.machine.read(self.spaces[space], int(addr, 0), int(data, 0))
            self.shown.append(["v0", "read", out.hex(), "decode" if how else "ok"])

    def do_show(self, space):
        names = {number: name for name, number in self.regions.items()}
        self.shown.append(["view", space])
        for it in self.machine.view(self.spaces[space]):
            found = self.machine.find(self.spaces[space], it.start)
            assert (found.region, found.offset, found.last) == (it.region, it.offset, it.last)
            flags = [word for word, is_so in [("ro", it.readonly), ("nv", it.nonvolatile), ("romd", it.romd), ("um", it.unmergeable)] if is_so]
            flags += [f"log={it.log}"] if it.log else []
            self.shown.append([f"{it.start:x}-{it.last:x}", names[it.region], f"@{it.offset:x}", KINDS[found.kind], *flags])


def told_in(out):
    """The same words of what a script writes: all of a range, and of a view its space."""
    for line in out.splitlines():
        words = line.split()
        if words[0] == "v0" and words[2] == "read":
            yield ["v0", "read", *words[3:5]]
        elif words[0] != "v0":
            yield words[:2] if words[0] == "view" else words


class Tests(unittest.TestCase):
    def test_a_device_over_memory(self):
        machine, _, ram, rom, uart = small()
        found = machine.find(SPACE, 0x1010)
        self.assertEqual((found.region, found.offset, found.last, found.kind), (uart, 0x10, 0x10FF, c.VB_KIND_IO))
        leaves = [(it.start, it.last, it.region) for it in machine.view(SPACE)]
        self.assertEqual(leaves, [(0, 0xFFF, ram), (0x1000, 0x10FF, uart), (0x1100, 0x3FFF, ram), (0xFFFF_F000, 0xFFFF_FFFF, rom)])
        self.assertEqual(machine.move(uart, 0x2000), 2)

    def test_reads_and_writes(self):
        machine, _, _, rom, uart = small()
        self.assertEqual(machine.write(SPACE, 0x10, b"\x01\x02\x03\x04"), 0)
        self.assertEqual(machine.read(SPACE, 0x10, 4), (b"\x01\x02\x03\x04", 0))
        machine.load(rom, 0, b"\x09" * 4)
        self.assertEqual(machine.read(SPACE, 0xFFFF_F000, 4), (b"\x09" * 4, 0))
        self.assertEqual(machine.read(SPACE, 1 << 32, 4)[1], c.VB_ACCESS_DECODE)
        machine.event(uart, Ioevent(offset=8, size=4, number=7))
        machine.write(SPACE, 0x1008, bytes([1, 0, 0, 0]))
        self.assertEqual((machine.notified(7), machine.notified(7)), (True, False))

    def test_refusals(self):
        machine, system, ram, rom, _ = small()
        for code, call in [
            (c.VB_LOOP, lambda: machine.add(ram, 0, system)),
            (c.VB_UNKNOWN, lambda: machine.find(9, 0)),
            (c.VB_WRONG_KIND, lambda: machine.resize(rom, 0x2000)),
            (c.VB_NAME_TAKEN, lambda: machine.space(SPACE, system)),
            (c.VB_BAD_SIZE, lambda: machine.ram(100)),
            (c.VB_ARGUMENT, lambda: machine.notified(64)),
            (c.VB_ARGUMENT, lambda: machine.read(SPACE, 0, 0, by=16)),
            (c.VB_ARGUMENT, lambda: Machine(WHOLE)),
        ]:
            with self.assertRaises(Refused) as it:
                call()
            self.assertEqual(it.exception.code, code)
        with self.assertRaisesRegex(Refused, "region 99 is not there"):
            machine.delete(system, 99)

    def test_a_listener_is_polled(self):
        machine, _, _, _, uart = small()
        machine.listen(2, SPACE)
        first = machine.told()
        self.assertEqual([it.what for it in first], [0, 2, 2, 2, 2, 8])
        machine.enable(uart, False)
        later = machine.told(len(first))
        self.assertTrue(any(it.what == c.VB_TOLD_DELETE and it.range.region == uart for it in later))

    def test_what_a_listener_was_told_is_forgotten(self):
        machine, _, _, _, uart = small()
        machine.listen(2, SPACE)
        first = machine.told()
        machine.enable(uart, False)
        later = machine.told(len(first))
        machine.forget(len(first))
        self.assertEqual([bytes(it) for it in machine.told(len(first))], [bytes(it) for it in later])
        with self.assertRaisesRegex(IndexError, f"up to {len(first)}"):
            machine.told()
        machine.forget(1 << 40)
        end = len(first) + len(later)
        self.assertEqual((machine.forgotten, machine.told(end)), (end, []))
        machine.enable(uart, True)
        self.assertTrue(any(it.what == c.VB_TOLD_ADD and it.range.region == uart for it in machine.told(end)))

    def test_a_write_to_a_pcs_configuration_port(self):
        machine = Machine(1 << 12)
        with machine:
            io = machine.container(0x10000)
            config = machine.io(8, Device(regs=1, valid_min=1, valid_max=4, impl_min=4, impl_max=4))
            reset = machine.io(1, Device(regs=1, valid_min=1, valid_max=1, impl_min=1, impl_max=1))
            machine.space(0, io)
            machine.add(io, 0xCF8, config)
            machine.add(io, 0xCF9, reset, 1)
        data = (0x80000810).to_bytes(4, "little")
        whole = [(it.region, it.offset, it.size, it.value) for it in machine.plan_write(0, 0xCF8, data, c.VB_WAY_QEMU)]
        self.assertEqual(whole, [(config, 0, 4, 0x80000810)])
        parts = [(it.region, it.offset, it.size, it.value) for it in machine.plan_write(0, 0xCF8, data)]
        self.assertEqual(parts, [(config, 0, 4, 0x10), (reset, 0, 1, 8), (config, 2, 4, 0x8000)])

    def test_scripts(self):
        self.assertEqual(run(b"region r container 0x1000\nspace s r\nshow s\n"), (b"view s g1\n", None))
        self.assertEqual(run(b"region r container 0x1000\nregion q circle\n")[1], 2)
        for name in sorted(os.listdir(MACHINES)):
            if name.endswith(".mt"):
                with open(os.path.join(MACHINES, name), "rb") as script, open(os.path.join(MACHINES, name[:-3] + ".out"), "rb") as out:
                    self.assertEqual(run(script.read()), (out.read(), None), name)

    def test_machines_through_the_handle(self):
        for name in sorted(os.listdir(MACHINES)):
            if name.endswith(".mt"):
                with open(os.path.join(MACHINES, name)) as script, open(os.path.join(MACHINES, name[:-3] + ".out")) as out:
                    self.assertEqual(Driver().done(script.read()), list(told_in(out.read())), name)

    def test_paths_and_pages(self):
        machine, system, ram, _, uart = small()
        self.assertEqual(machine.path(SPACE, 0x1010), [system, uart])
        self.assertEqual(machine.path(SPACE, 1 << 32), [])
        machine.log(ram, c.VB_CLIENT_DISPLAY)
        machine.write(SPACE, 0x3FFF, b"\x01")
        machine.write(SPACE, 0x10, b"\x01")
        self.assertEqual(machine.harvest(ram, c.VB_CLIENT_DISPLAY), [0, 3])
        self.assertEqual(machine.harvest(ram, c.VB_CLIENT_DISPLAY), [])
        with self.assertRaises(Refused) as it:
            machine.harvest(uart, c.VB_CLIENT_DISPLAY)
        self.assertEqual(it.exception.code, c.VB_WRONG_KIND)
        machine.delete(system, uart)
        machine.drop(uart)
        for _ in range(8):
            machine.enable(ram, False)
            machine.enable(ram, True)
        self.assertEqual((machine.reap(), machine.reap()), ([uart], []))

    def test_a_virtual_cpu_beside_its_desk(self):
        desk = Desk(1 << 12)
        system = desk.region(c.VB_KIND_CONTAINER)
        ram = desk.region(c.VB_KIND_RAM, 0x1000)
        desk.ask(c.VB_DO_SPACE, space=SPACE, other=system)
        desk.ask(c.VB_DO_ADD, region=system, other=ram)
        cpu = desk.cpu()
        self.assertEqual(cpu.write8(SPACE, 8, 0x0102), 0)
        number = cpu.enter()
        self.assertEqual(desk.ask(c.VB_DO_MOVE, region=ram, offset=0x4000).other, number + 1)
        self.assertEqual(cpu.read(SPACE, 8, 2), (b"\x02\x01", 0))
        self.assertEqual([(it.what, it.region, it.offset, it.len) for it in cpu.plan_read(SPACE, 0xFFC, 8)][0], (c.VB_REACHED_MEMORY, ram, 0xFFC, 4))
        self.assertEqual([(it.region, it.offset) for it in cpu.plan_write(SPACE, 8, b"x", c.VB_WAY_QEMU)], [(ram, 8)])
        self.assertEqual((cpu.find(SPACE, 8).region, cpu.path(SPACE, 8), [it.last for it in cpu.view(SPACE)]), (ram, [system, ram], [0xFFF]))
        cpu.leave()
        with self.assertRaises(Refused) as it:
            cpu.find(SPACE, 8)
        self.assertEqual(it.exception.code, c.VB_NOT_ENTERED)
        self.assertEqual(cpu.read(SPACE, 8, 2)[1], c.VB_ACCESS_DECODE)
        self.assertEqual([(it.start, it.region) for it in desk.view(SPACE)], [(0x4000, ram)])
        with self.assertRaises(Refused) as it:
            cpu.write8(SPACE, 0x4004, 1)
        self.assertEqual(it.exception.code, c.VB_NOT_WHOLE)

    def test_a_write_of_parts_of_words(self):
        desk = Desk(1 << 12)
        system, ram = desk.region(c.VB_KIND_CONTAINER), desk.region(c.VB_KIND_RAM, 0x2000)
        desk.ask(c.VB_DO_SPACE, space=SPACE, other=system)
        desk.ask(c.VB_DO_ADD, region=system, other=ram)
        desk.ask(c.VB_DO_LOG, region=ram, client=c.VB_CLIENT_MIGRATION, on=True)
        cpu = desk.cpu()
        self.assertEqual(cpu.write(SPACE, 0xFFD, b"abcdefgh"), (8, 0))
        self.assertEqual(cpu.read(SPACE, 0xFFC, 10), (b"\0abcdefgh\0", 0))
        self.assertEqual(desk.harvest(ram, c.VB_CLIENT_MIGRATION), [0, 1])
        self.assertEqual(cpu.write(SPACE, 0xFF8, b"0123456789", tries=0), (8, 0))
        self.assertEqual(cpu.read(SPACE, 0xFF8, 10), (b"01234567de", 0))
        self.assertEqual(desk.harvest(ram, c.VB_CLIENT_MIGRATION), [0])
        self.assertEqual(cpu.write(SPACE, 0x1FFE, b"xyz"), (3, c.VB_ACCESS_DECODE))

    def test_what_the_listeners_of_a_desk_were_told_is_forgotten(self):
        desk = Desk(1 << 12)
        system, ram = desk.region(c.VB_KIND_CONTAINER), desk.region(c.VB_KIND_RAM, 0x1000)
        desk.ask(c.VB_DO_SPACE, space=SPACE, other=system)
        desk.ask(c.VB_DO_ADD, region=system, other=ram)
        desk.ask(c.VB_DO_LISTEN, listener=2, space=SPACE)
        end = len(desk.told())
        for at in range(0x1000, 0x9000, 0x1000):
            desk.forget(end)
            self.assertEqual((desk.forgotten, desk.told(end)), (end, []))
            desk.ask(c.VB_DO_MOVE, region=ram, offset=at)
            told = desk.told(end)
            self.assertEqual([it.range.start for it in told if it.what == c.VB_TOLD_ADD], [at])
            end += len(told)
        with self.assertRaises(IndexError):
            desk.told()

    def test_what_is_closed_is_freed(self):
        with Desk(1 << 12) as desk, desk.cpu() as cpu:
            cpu.enter()
        for call in (desk.reap, cpu.enter):
            with self.assertRaises(Refused) as refused:
                call()
            self.assertEqual((refused.exception.code, refused.exception.name), (c.VB_NO_MACHINE, "NO_MACHINE"))
        with contextlib.closing(Machine(64)) as machine:
            with machine:
                machine.space(SPACE, machine.container())
            self.assertEqual(machine.last, 1)
        self.assertRaises(Refused, machine.container)
        machine.close()

    def test_a_refusal_has_its_fields(self):
        machine = Machine(1 << 12)
        parent, child = machine.container(), machine.ram(0x1000)
        machine.add(parent, 0, child)
        with self.assertRaises(Refused) as refused:
            machine.add(parent, 0x1000, child)
        told = refused.exception
        self.assertEqual((told.code, told.name, told.value), (c.VB_HAS_CONTAINER, "HAS_CONTAINER", parent))
        names = [it[3:] for it in vars(c) if it.startswith("VB_")]
        self.assertEqual(list(vobrekan.CODES.values()), names[: names.index("SORT_REGION")])

    def test_the_examples_of_the_module(self):
        for module in (vobrekan, vobrekan.bounds):
            self.assertEqual(doctest.testmod(module).failed, 0)
        with open(os.path.join(os.path.dirname(vobrekan.__file__), "..", "pyproject.toml"), encoding="utf-8") as project:
            self.assertIn(f'version = "{vobrekan.__version__}"', project.read())


if __name__ == "__main__":
    ran = unittest.main(argv=sys.argv[:1], exit=False, verbosity=0).result
    bad = len(ran.failures) + len(ran.errors)
    print(f"{ran.testsRun - bad} passed, {bad} failed")
    sys.exit(bad != 0)
