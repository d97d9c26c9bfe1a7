"""The store over a reset, over a new start, and spoilt."""
import os
import struct

from client import Client, Desk, check, run_through

PROGRAM = ["0 300,5000,-100,5000,-30,5000,30,5000", "y40,5000,0,5,0,-1,-1", "3 2,-2"]


def summed(whole):
    """A store's file with the sum that firmware/mps2/keep.c asks of it."""
    used, records, axes = struct.unpack_from("<III", whole, 8)
    total = 2166136261
    for number in (used, records, axes, *whole[20 : 20 + used]):
        total = (total ^ number) * 16777619 & 0xFFFFFFFF
    return whole[:4] + struct.pack("<I", total) + whole[8:]


def kept_run(kind, folder, file):
    """The pulses that a board with this store makes of its program, or its refusal."""
    with Desk(kind, folder, pace=0, store=file) as desk, Client(desk) as client:
        check(client.ask("@07") == "0", "the axes are refused")
        got = client.ask("@0S")
        return desk.pulses() if got == "0" else got


def stored(kind, folder, file):
    """Stores a program, which a reset of the chip keeps, and is cut off in storing another; the pulses of the first."""
    with Desk(kind, folder, pace=0, store=file) as desk, Client(desk) as client:
        check(client.ask("@07") == "0" and client.ask("@0S") == "8", "a new store is not empty")
        client.store("@07", ["0 1,600,0,600,0,300,0,300"])
        client.store("@07", PROGRAM)
        pulses = run_through(desk, client)
        if kind == "chip":
            desk.monitor("system_reset")
            check(client.ask("@0S") == "4", "a reset of the chip keeps the axes")
            check(run_through(desk, client) == pulses, "a reset of the chip loses the program")
        check(client.ask("@0i") == "0" and client.ask(PROGRAM[0]) == "0", "storing is refused")
    return pulses


def put(file, whole):
    with open(file, "wb") as opened:
        opened.write(whole)


def spoil(kind, folder, file, places):
    """One byte of it spoilt, or one record with the right sum: it counts as empty."""
    with open(file, "rb") as opened:
        whole = opened.read()
    check(summed(whole) == whole, "the sum is another one")
    ways = {f"with byte {place} spoilt": whole[:place] + bytes([whole[place] ^ 16]) + whole[place + 1 :] for place in places}
    ways["with a record that is none"] = summed(whole[:20] + b"\xff" + whole[21:])
    for why, held in ways.items():
        put(file, held)
        check(kept_run(kind, folder, file) == "8", f"{why} the store is not empty")
    put(file, whole)


def empty(kind, folder, file):
    with Desk(kind, folder, pace=0, store=file) as desk, Client(desk) as client:
        check(client.ask("@0k") == "0", "emptying is refused")
    check(kept_run(kind, folder, file) == "8", "an emptied store is not empty at the next start")


def store(kind, folder, short, seed):
    """The program is there again at the next start, on the other board too, unless it is spoilt or emptied."""
    file = os.path.join(folder, "store")
    wanted = stored(kind, folder, file)
    check(kept_run(kind, folder, file) == wanted, "a new start loses the program")
    if not short or kind == "chip":
        other = "native" if kind == "chip" else "chip"
        check(kept_run(other, folder, file) == wanted, f"the {other} board loses the program")
    spoil(kind, folder, file, (50,) if kind == "chip" else (0, 4, 8, 12, 16, 20, 77))
    if not short or kind == "native":
        empty(kind, folder, file)
    print("  the store over a reset and new starts, spoilt and emptied")
