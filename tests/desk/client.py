"""A board that tools/desk starts, and a client on its serial line."""
import os
import socket
import subprocess
import time

import serial

ROOT = os.path.dirname(os.path.dirname(os.path.dirname(os.path.abspath(__file__))))
PATIENCE = 60  # seconds after which an answer no longer comes
STOP, RESET, BREAK = b"\xfd", b"\xfe", b"\xff"


class Wrong(Exception):
    """Something is not as it should be."""


def check(is_so, what):
    if not is_so:
        raise Wrong(what)


class Desk:
    """The board as `chip` or `native`, with the files of its pins in a folder."""

    def __init__(self, kind, folder, pace=1, store=None):
        self.pulse_file = os.path.join(folder, "pulses")
        self.output_file = os.path.join(folder, "outputs")
        self.socket = os.path.join(folder, "monitor")
        words = [os.path.join(ROOT, "tools", "desk"), "--pace", str(pace), "--pulses", self.pulse_file, "--outputs", self.output_file]
        words += ["--native"] if kind == "native" else ["--monitor", self.socket]
        words += ["--store", store] if store else []
        self.process = subprocess.Popen(words, stdout=subprocess.PIPE, text=True)
        said = self.process.stdout.readline()
        check(said.startswith("desk: the board is on /dev/"), f"tools/desk does not start: {said!r}")
        self.name = said.split()[-1]

    def __enter__(self):
        return self

    def __exit__(self, kind, value, trace):
        ended = self.process.poll()
        self.process.terminate()
        status = self.process.wait(PATIENCE)
        self.process.stdout.close()
        if kind is None:
            check(ended is None, "the board ended by itself")
            check(status == 0, f"tools/desk ends with status {status}")
            check(not self.left(), "tools/desk leaves a program behind")

    def left(self):
        """Programs that still have this desk's file among their words."""
        found = []
        for number in filter(str.isdigit, os.listdir("/proc")):
            try:
                with open(f"/proc/{number}/cmdline", "rb") as file:
                    found += [number] if self.pulse_file.encode() in file.read() else []
            except OSError:
                pass
        return found

    def made(self):
        return os.path.getsize(self.pulse_file)

    def pulses(self, since=0):
        with open(self.pulse_file, "rb") as file:
            file.seek(since)
            return file.read()

    def outputs(self):
        with open(self.output_file, "rb") as file:
            return file.read()

    def until(self, made):
        """Waits for this many pulses."""
        end = time.monotonic() + PATIENCE
        while self.made() < made:
            check(time.monotonic() < end, f"{made} pulses do not come")
            time.sleep(0.0005)

    def monitor(self, command):
        with socket.socket(socket.AF_UNIX) as line:
            line.settimeout(PATIENCE)
            line.connect(self.socket)
            told = b""
            for text in ("", command + "\n"):
                line.sendall(text.encode())
                while not told.endswith(b"(qemu) "):
                    told += line.recv(4096)
                told = b""


class Client:
    """A client on the line of a desk; all 8 bits pass both ways."""

    def __init__(self, desk):
        self.line = serial.Serial(desk.name, 19200, timeout=PATIENCE, write_timeout=PATIENCE)

    def __enter__(self):
        return self

    def __exit__(self, *_):
        self.line.close()

    def send(self, what):
        self.line.write(what)

    def read(self, count=1):
        got = self.line.read(count)
        check(len(got) == count, f"of {count} bytes came {got!r}")
        return got.decode("latin-1")

    def ask(self, text, count=1):
        """A line, and so many bytes of its answer."""
        self.send(text.encode() + b"\r")
        return self.read(count)

    def position(self):
        """The numbers of x, y and z."""
        told = self.ask("@0P", 19)
        check(told[0] == "0", f"@0P is answered {told}")
        counts = [int(told[i : i + 6], 16) for i in (1, 7, 13)]
        return [n - (1 << 24 if n >> 23 else 0) for n in counts]

    def quiet(self, seconds=0.1):
        """What comes until nothing has come for so long."""
        self.line.timeout = seconds
        got = b""
        while more := self.line.read(4096):
            got += more
        self.line.timeout = PATIENCE
        return got.decode("latin-1")

    def store(self, axes, program):
        for text in (axes, "@0i", *program, "9"):
            got = self.ask(text)
            check(got == "0", f"{text} is answered {got}")


def run_through(desk, client, axes="@07"):
    """The pulses of the stored program from 0 on, never stopped."""
    check(client.ask(axes) == "0", "the axes are refused")
    since = desk.made()
    check(client.ask("@0S") == "0", "the program does not reach its end")
    return desk.pulses(since)


def undisturbed(folder, program):
    """The same of a program on a board of its own, which runs on this machine and as fast as it can."""
    with Desk("native", folder, pace=0) as desk, Client(desk) as client:
        client.store("@07", program)
        since = desk.made()
        client.send(b"@0S\r")
        while client.read() != "0":
            pass
        return desk.pulses(since)


def led(pulses):
    """Where pulses lead, x, y and z, from 0 on."""
    ways = (0, 1, None, -1)
    return [sum(ways[pulse >> at & 3] for pulse in pulses) for at in (0, 2, 4)]
