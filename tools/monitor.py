#!/usr/bin/env python3
"""Asks a running QEMU by the socket of its monitor what its memory map is, for tools/qemu.

Usage: tools/monitor.py SOCKET FOLDER [SECONDS]

SOCKET is a socket of the human monitor or of QMP: what it greets with tells which. FOLDER gets tree.txt (info mtree -D) and flat.txt (info mtree -f).
The tree is asked for before the views and after them, and all again where a window moved in between, five times at most. No other command is given, so
the guest runs on. SECONDS, 10 where it is left out, is how long each answer may take; then it ends with status 2 and says what did not come."""
import json
import socket
import sys
import time

PROMPT = b"(qemu) "
TRIES = 5


class Stop(Exception):
    """What is told to the user where there is no answer."""


class Line:
    """The connection, and the bytes that came and were not taken yet."""

    def __init__(self, path, seconds):
        self.path, self.seconds, self.bytes = path, seconds, b""
        self.socket = socket.socket(socket.AF_UNIX)
        self.socket.settimeout(seconds)
        try:
            self.socket.connect(path)
        except TimeoutError:
            raise Stop(f"{path}: QEMU does not take the connection within {seconds:g} s") from None
        except OSError as why:
            raise Stop(f"{path}: {why.strerror or why}") from None

    def send(self, text):
        try:
            self.socket.sendall(text.encode() + b"\n")
        except OSError as why:
            raise Stop(f"{self.path}: {why.strerror or why}") from None

    def take(self, end_of, what, until=None):
        """The bytes up to an end, which end_of finds in what came so far (None where it did not come yet)."""
        until = until or time.monotonic() + self.seconds
        while (end := end_of(self.bytes)) is None:
            self.socket.settimeout(max(until - time.monotonic(), 0.001))
            try:
                more = self.socket.recv(1 << 16)
            except TimeoutError:
                raise Stop(f"{self.path}: {what} did not come within {self.seconds:g} s; does another program hold this monitor?") from None
            except OSError as why:
                raise Stop(f"{self.path}: {why.strerror or why}") from None
            if not more:
                raise Stop(f"{self.path}: QEMU closed the connection before {what} came")
            self.bytes += more
        taken, self.bytes = self.bytes[:end], self.bytes[end:]
        return taken


def first_of_greeting(came):
    """Enough of a greeting to tell which monitor it is."""
    return 0 if came.lstrip() else None


def end_of_prompt(came):
    """Behind the monitor's prompt, after which it waits."""
    return len(came) if came == PROMPT or came.endswith(b"\n" + PROMPT) else None


def end_of_line(came):
    return came.index(b"\n") + 1 if b"\n" in came else None


class Human:
    """The human monitor."""

    def __init__(self, line):
        self.line = line
        line.take(end_of_prompt, "the monitor's prompt")

    def ask(self, command):
        self.line.send(command)
        answer = self.line.take(end_of_prompt, f"the answer to {command}")
        # The first line is the command, as the monitor's line editor echoes it, and the last one is the next prompt.
        lines = answer.replace(b"\r", b"").split(b"\n")
        return b"\n".join(lines[1:-1]) + b"\n"


class Machine:
    """QMP, which is asked for the answers of the human monitor."""

    def __init__(self, line):
        self.line = line
        line.take(end_of_line, "the greeting")
        self.execute("qmp_capabilities", {})

    def execute(self, name, arguments):
        until = time.monotonic() + self.line.seconds
        self.line.send(json.dumps({"execute": name, "arguments": arguments}))
        while True:
            try:
                reply = json.loads(self.line.take(end_of_line, f"the answer to {name}", until))
            except ValueError:
                raise Stop(f"{self.line.path}: the answer to {name} is no JSON") from None
            if "error" in reply:
                raise Stop(f"{self.line.path}: {name}: {reply['error'].get('desc', reply['error'])}")
            # Anything else is an event.
            if "return" in reply:
                return reply["return"]

    def ask(self, command):
        return self.execute("human-monitor-command", {"command-line": command}).replace("\r", "").encode()


def monitor_of(line):
    """The monitor at the other end of a connection, by what it greets with."""
    line.take(first_of_greeting, "a greeting")
    return Machine(line) if line.bytes.lstrip().startswith(b"{") else Human(line)


def texts_of(monitor):
    """The tree and the views of one moment."""
    tree = monitor.ask("info mtree -D")
    for _ in range(TRIES):
        flat = monitor.ask("info mtree -f")
        before, tree = tree, monitor.ask("info mtree -D")
        if before == tree:
            return tree, flat
    raise Stop(f"the guest's map changed {TRIES} times while it was read: ask again when its firmware is done")


def main():
    if len(sys.argv) not in (3, 4) or sys.argv[1].startswith("-"):
        sys.exit(__doc__)
    try:
        line = Line(sys.argv[1], float(sys.argv[3]) if len(sys.argv) == 4 else 10.0)
        tree, flat = texts_of(monitor_of(line))
    except Stop as why:
        print(f"tools/qemu: {why}", file=sys.stderr)
        sys.exit(2)
    for name, text in [("tree.txt", tree), ("flat.txt", flat)]:
        with open(f"{sys.argv[2]}/{name}", "wb") as it:
            it.write(text)


if __name__ == "__main__":
    main()
