"""The module for Python against misuse: what it is given wrongly it refuses, with nothing done, and threads may share what it makes."""
import array
import copy
import os
import pickle
import subprocess
import sys
import threading
import unittest
from unittest import mock

HERE = os.path.dirname(os.path.abspath(__file__))
sys.path.insert(0, os.path.join(HERE, ".."))
import vobrekan  # noqa: E402
from vobrekan import Cpu, Desk, Device, Ioevent, Machine, Refused, WHOLE, run  # noqa: E402
from vobrekan import declarations as c  # noqa: E402

SPACE = 1
SIZES = {"valid_min": 1, "valid_max": 4, "impl_min": 1, "impl_max": 4}


def small():
    """A machine with a page of RAM at 0, logged for a migration, and its container and its RAM."""
    machine = Machine(1 << 12)
    board, ram = machine.container(), machine.ram(0x1000)
    machine.space(SPACE, board)
    machine.add(board, 0, ram)
    machine.log(ram, c.VB_CLIENT_MIGRATION)
    return machine, board, ram


def small_desk():
    """The same at a desk."""
    desk = Desk(1 << 12)
    board, ram = desk.region(c.VB_KIND_CONTAINER), desk.region(c.VB_KIND_RAM, 0x1000)
    desk.ask(c.VB_DO_SPACE, space=SPACE, other=board)
    desk.ask(c.VB_DO_ADD, region=board, other=ram)
    return desk, board, ram


def no_memory(*_):
    """The answer of a call for which memory ran out."""
    return c.vb_answer(code=c.VB_MEMORY)


class Tests(unittest.TestCase):
    def refused(self, call):
        """The refusal of a call."""
        with self.assertRaises(Refused) as it:
            call()
        return it.exception

    def test_counts_that_no_buffer_has(self):
        machine, cpu = small()[0], small_desk()[0].cpu()
        cpu.enter()
        for count in (-1, -(2**63), 2**63, 2**64 - 1, 2**64):
            for call in (machine.read, cpu.read):
                with self.assertRaisesRegex(ValueError, f"count: {count} is not in the range"):
                    call(SPACE, 0, count)
        for call in (machine.plan_read, cpu.plan_read):
            self.assertRaises(ValueError, call, SPACE, 0, -1)
        self.assertEqual((machine.read(SPACE, 0, 0), cpu.read(SPACE, 0, 0)), ((b"", 0), (b"", 0)))

    def test_threads_share_a_machine(self):
        machine, _, ram = small()
        switching, errors = sys.getswitchinterval(), []

        def work(number):
            try:
                for turn in range(4000):
                    if machine.find(SPACE, 8 * number).region != ram:
                        raise AssertionError(f"another region in turn {turn}")
                    machine.write(SPACE, 8 * number, bytes([turn % 256]) * 8)
                    if machine.read(SPACE, 8 * number, 8) != (bytes([turn % 256]) * 8, 0):
                        raise AssertionError(f"other bytes in turn {turn}")
            except (AssertionError, Refused) as error:
                errors.append(error)

        sys.setswitchinterval(1e-6)
        try:
            threads = [threading.Thread(target=work, args=(number,)) for number in range(4)]
            for it in threads:
                it.start()
            for it in threads:
                it.join()
        finally:
            sys.setswitchinterval(switching)
        self.assertEqual(errors, [])
        self.assertEqual(machine.harvest(ram, c.VB_CLIENT_MIGRATION), [0])

    def test_a_harvest_of_what_is_no_memory(self):
        machine, board, ram = small()
        desk, system, memory = small_desk()
        host = machine.host(1 << 44)
        for region, harvest in ((board, machine.harvest), (host, machine.harvest), (system, desk.harvest)):
            refused = self.refused(lambda: harvest(region, c.VB_CLIENT_MIGRATION))
            self.assertEqual((refused.code, refused.value), (c.VB_WRONG_KIND, region))
        for client in (3, 64, 2**31):
            for region, harvest in ((ram, machine.harvest), (memory, desk.harvest)):
                refused = self.refused(lambda: harvest(region, client))
                self.assertEqual((refused.code, refused.value), (c.VB_ARGUMENT, client))

    def test_the_largest_memory_is_harvested(self):
        machine = Machine(1 << 26)
        board, ram = machine.container(), machine.ram((1 << 29) - (1 << 19))
        machine.space(SPACE, board)
        machine.add(board, 0, ram)
        machine.log(ram, c.VB_CLIENT_CODE)
        last = ((1 << 29) - (1 << 19)) // 4096 - 1
        machine.write(SPACE, 4096 * last, b"x")
        self.assertEqual(machine.harvest(ram, c.VB_CLIENT_CODE), [last])

    def test_numbers_out_of_range(self):
        machine, board, ram = small()
        desk, _, memory = small_desk()
        cpu, device = desk.cpu(), Device(regs=1, **SIZES)
        for call in [
            lambda: machine.find(2**32, 0),
            lambda: machine.find(SPACE, 2**64),
            lambda: machine.find(-1, 0),
            lambda: machine.ram(2**64 + 4096),
            lambda: machine.add(board, 0, ram, priority=2**31),
            lambda: machine.add(board, 0, ram, priority=-(2**31) - 1),
            lambda: machine.space(-1, board),
            lambda: machine.log(ram, 2**32),
            lambda: machine.read(SPACE, 0, 1, by=2**32),
            lambda: machine.write(SPACE, -1, b"x"),
            lambda: machine.told(2**64),
            lambda: machine.forget(2**64),
            lambda: desk.ask(c.VB_DO_MOVE, region=2**32 + memory, offset=0x1000),
            lambda: desk.ask(c.VB_DO_MOVE, region=memory, offset=-1),
            lambda: desk.ask(2**32 + c.VB_DO_MOVE, region=memory, offset=0x1000),
            lambda: desk.ask(c.VB_DO_LISTEN, space=SPACE, priority=2**31),
            lambda: desk.region(c.VB_KIND_RAM, 2**64 + 4096),
            lambda: cpu.write(SPACE, 0, b"x", tries=-1),
            lambda: cpu.write8(SPACE, 0, 2**64),
            lambda: cpu.write8(SPACE, 0, -1),
            lambda: Machine(-1),
            lambda: Desk(2**64 + 64),
            lambda: Device(regs=2**32 + 1, **SIZES),
            lambda: Device(c.VB_DEVICE_LATCH, -1),
            lambda: Ioevent(offset=2**64, size=4),
            lambda: setattr(device, "valid_max", 256),
        ]:
            self.assertRaises(ValueError, call)
        self.assertEqual((machine.view(SPACE)[0].start, desk.view(SPACE)[0].start, device.valid_max), (0, 0, 4))
        self.assertEqual(machine.add(board, 0, machine.container(16), priority=-(2**31)), 4)

    def test_a_field_that_there_is_not(self):
        desk, _, memory = small_desk()
        with self.assertRaisesRegex(TypeError, "vb_order has no field regoin"):
            desk.ask(c.VB_DO_MOVE, regoin=memory, offset=0x1000)
        self.assertRaises(TypeError, Device, kinds=1)

    def test_data_of_wide_items(self):
        machine, _, ram = small()
        cpu = small_desk()[0].cpu()
        words = array.array("I", [0x04030201, 0x08070605])
        whole = words.tobytes()
        for data, told in [(words, whole), (memoryview(words), whole), (memoryview(b"abcdefgh")[::2], b"aceg"), (bytearray(b"xyz"), b"xyz")]:
            self.assertEqual(machine.write(SPACE, 0, bytes(16)), 0)
            self.assertEqual((machine.write(SPACE, 0, data), machine.read(SPACE, 0, 16)), (0, (told.ljust(16, b"\0"), 0)))
            machine.load(ram, 0x100, data)
            self.assertEqual(machine.read(SPACE, 0x100, len(told)), (told, 0))
            self.assertEqual(machine.plan_write(SPACE, 0, data)[0].len, len(told))
            self.assertEqual((cpu.write(SPACE, 0, data), cpu.read(SPACE, 0, len(told))), ((len(told), 0), (told, 0)))
        script = b"region r container 4K   \nspace s r\nshow s\n  "
        self.assertEqual(run(array.array("I", script)), (b"view s g1\n", None))

    def test_a_commit_that_is_refused(self):
        machine, _, ram = small()
        with mock.patch.object(vobrekan.LIBRARY, "vb_commit", no_memory):
            with self.assertRaises(Refused) as refused, machine:
                machine.move(ram, 0x4000)
            self.assertEqual((refused.exception.code, machine.last, machine.left_open), (c.VB_MEMORY, None, 1))
            self.assertEqual(self.refused(machine.close_transactions).code, c.VB_MEMORY)
        self.assertEqual(machine.view(SPACE)[0].start, 0)
        self.assertEqual((machine.close_transactions(), machine.close_transactions()), (4, None))
        self.assertEqual((machine.view(SPACE)[0].start, machine.move(ram, 0)), (0x4000, 5))
        self.assertEqual(self.refused(machine.__exit__).code, c.VB_NO_TRANSACTION)
        self.assertEqual(machine.left_open, 0)

    def test_a_later_transaction_closes_what_is_left_open(self):
        machine, _, ram = small()
        with mock.patch.object(vobrekan.LIBRARY, "vb_commit", no_memory):
            with self.assertRaises(Refused), machine:
                machine.move(ram, 0x4000)
        with machine:
            machine.enable(ram, False)
        self.assertEqual((machine.last, machine.view(SPACE), machine.left_open), (4, [], 0))

    def test_the_error_of_a_transaction_goes_on(self):
        machine, _, ram = small()
        with self.assertRaisesRegex(KeyError, "mine") as raised:
            with mock.patch.object(vobrekan.LIBRARY, "vb_commit", no_memory), machine:
                raise KeyError("mine")
        if sys.version_info >= (3, 11):
            self.assertIn("still open: out of memory", raised.exception.__notes__[0])
        machine.move(ram, 0x4000)
        self.assertEqual(machine.view(SPACE)[0].start, 0)
        machine.close_transactions()
        self.assertEqual(machine.view(SPACE)[0].start, 0x4000)

    def test_a_refusal_goes_to_another_process(self):
        machine, board, ram = small()
        refused = self.refused(lambda: machine.add(board, 0, ram))
        refused.mine = "kept"
        for it in (pickle.loads(pickle.dumps(refused)), copy.copy(refused), copy.deepcopy(refused)):
            self.assertEqual(vars(it), vars(refused))
            self.assertEqual((type(it), str(it), it.name), (Refused, str(refused), "HAS_CONTAINER"))

    def test_what_was_never_made_is_freed_in_silence(self):
        ends = "import vobrekan\nkept = [vobrekan.Machine(64), vobrekan.Desk(64)]\nkept.append(kept[1].cpu())\nkept.append(kept)\n"
        made = "for it in (vobrekan.Machine, vobrekan.Desk, vobrekan.Cpu):\n    it.__new__(it)\n    try: it()\n    except TypeError: pass\n"
        told = subprocess.run([sys.executable, "-c", ends + made], cwd=os.path.join(HERE, ".."), capture_output=True, check=False)
        self.assertEqual((told.returncode, told.stdout, told.stderr), (0, b"", b""))
        with Desk(64) as desk, desk.cpu() as cpu:
            self.assertIsInstance(cpu, Cpu)
        self.assertEqual(self.refused(lambda: Cpu(desk)).code, c.VB_NO_MACHINE)
        self.assertEqual(self.refused(lambda: Machine(WHOLE)).code, c.VB_ARGUMENT)


if __name__ == "__main__":
    ran = unittest.main(argv=sys.argv[:1], exit=False, verbosity=0).result
    bad = len(ran.failures) + len(ran.errors)
    print(f"{ran.testsRun - bad} passed, {bad} failed")
    sys.exit(bad != 0)
