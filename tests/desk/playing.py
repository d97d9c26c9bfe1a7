"""What the board does: cases of walk over the line, the output pins, and how long it takes."""
import os
import time

from client import RESET, ROOT, Client, Desk, check

CASES = """absolute circle_example circle_loop circle_once_round circle_program loop_26 loop_nested loops_seven_deep position_256 positions
three_d_in_a_program turntable_phases turntable_program""".split()
SIGNS = {".": 0, "+": 1, "-": 3}


def walked(case):
    """The lines of a case of tests/walk, and the answers and pulses that it should have."""
    base = os.path.join(ROOT, "tests", "walk", case)
    with open(base + ".in", "rb") as file:
        lines = file.read().split(b"\r")
    with open(base + ".out") as file:
        rows = [row.split() for row in file]
    answers = "".join(row[1] for row in rows if row[0] == "R")
    pulses = bytes(sum(SIGNS[sign] << 2 * axis for axis, sign in enumerate(row[1])) for row in rows if row[0] == "P")
    return lines[:-1], answers, pulses


def walks(kind, folder, short, seed):
    """Between two cases a reset and an emptied store make the board a fresh one."""
    with Desk(kind, folder, pace=0) as desk, Client(desk) as client:
        for case in CASES:
            lines, answers, pulses = walked(case)
            since = desk.made()
            got = "".join(client.ask(line.decode("latin-1")) + client.quiet(0.05) for line in lines)
            check(got == answers, f"{case}: the answers are {got}")
            check(desk.pulses(since) == pulses, f"{case}: the pulses are others")
            client.send(RESET)
            check(client.ask("@0k") == "0", "emptying is refused")
        print(f"  {len(CASES)} cases of walk, {desk.made()} pulses")


def pins(kind, folder, short, seed):
    """The output byte follows its line and a reset."""
    with Desk(kind, folder) as desk, Client(desk) as client:
        for text in ("@07", "@0B0,165", "@0B0,165", "@0B0,255"):
            check(client.ask(text) == "0", f"{text} is refused")
        check(client.ask("@0b2", 3) == "000", "an input port is not 0")
        client.send(RESET)
        check(client.ask("@07") == "0", "the axes are refused")
        check(desk.outputs() == bytes((0, 165, 255, 0)), f"the output was {desk.outputs()}")
    print("  the output pins")


def timing(kind, folder, short, seed):
    """Seconds of pulses and of a delay. The emulator may take longer, but is never quicker."""
    with Desk(kind, folder) as desk, Client(desk) as client:
        client.store("@07", ["5 10"])
        took = []
        for text in ("@0A 1000,1000,0,30,0,30,0,30", "@0A 7000,7000,0,30,0,30,0,30", "@0S"):
            begun = time.monotonic()
            check(client.ask(text) == "0", f"{text} is refused")
            took.append(time.monotonic() - begun)
    print("  1,000 pulses at 1,000 a second took {:.3f} seconds, 7,000 at 7,000 {:.3f}, a delay of ten tenths {:.3f}".format(*took))
    check(min(took) >= 0.95 and (kind == "chip" or max(took) <= 1.1), "that is no second")
