"""Stops: a session as a person has it, stops at random moments, and one while the board runs as fast as it can."""
import os
import random
import time

from client import BREAK, STOP, Client, Desk, check, led, run_through, undisturbed

HERE = os.path.dirname(os.path.abspath(__file__))
SLOW = ["0 20,30,-10,30,-4,300,4,300", "y16,300,0,2,0,-1,-1", "3 1,-1"]
MIXED = [
    "0 600,9000,-250,9000,-80,3000,40,6000",
    "y1600,8000,0,200,0,-1,-1",
    "z1",
    "0 -300,7000,299,7000,123,7000,0,30",
    "1 42",
    "z0",
    "m 0,10000,0,10000,0,10000,0,10000",
    "3 3,-7",
]


def told_session(desk, client, stop_after):
    """A session with a stop behind so many pulses, told line by line, its pulses, and whether the stop came before the next one."""
    told = []

    def ask(text, count=1):
        told.extend((f"> {text}", f"< {client.ask(text, count)}"))

    for text in ("@07", "@0i", *SLOW, "9"):
        ask(text)
    since = desk.made()
    client.send(b"@0S\r")
    desk.until(since + stop_after)
    client.send(STOP)
    told.extend(("> @0S", f"  {stop_after} pulses", "> stop", f"< {client.read()}"))
    stood = desk.made() - since
    ask("@0P", 19)
    check(client.position() == led(desk.pulses(since)), "P is not where the pulses have led")
    ask("@0A 1,800,0,800,0,300,0,300")
    check(desk.made() - since == stood, "pulses come while it stands")
    client.send(b"@0S\r")
    end = client.read()
    pulses = desk.pulses(since)
    told.extend(("> @0S", f"  {len(pulses) - stood} pulses", f"< {end}"))
    ask("@0P", 19)
    return told, pulses, stood == stop_after


def session(kind, folder, short, seed):
    """The session of session.txt; where the stop comes a pulse too late, since the machine is busy, it is begun again."""
    with open(os.path.join(HERE, "session.txt")) as file:
        wanted = file.read()
    with Desk(kind, folder) as desk, Client(desk) as client:
        for _ in range(5):
            told, pulses, exact = told_session(desk, client, 8)
            if exact:
                break
        check(exact, "no stop of five comes between the 8th pulse and the next")
        same = pulses == run_through(desk, client)
    told.append(f"the {len(pulses)} pulses are {'those' if same else 'others than those'} of a run never stopped")
    told = "\n".join(told) + "\n"
    print(told, end="")
    check(told == wanted, "the session is another one than tests/desk/session.txt")


def stopped_run(desk, client, chance, left):
    """A run with random stops, at most so many: its pulses, and how many stops are left."""
    since = desk.made()
    client.send(b"@0S\r")
    got = ""
    while left and got != "0":
        time.sleep(chance.choice((0, chance.uniform(0, 0.002), chance.uniform(0, 0.01))))
        client.send(STOP)
        while (got := client.read()) == "*":
            pass
        if got == "0":
            break
        check(got == "F", f"a stop is answered {got}")
        left -= 1
        check(client.position() == led(desk.pulses(since)), "P is not where the pulses have led")
        client.send(b"@0S\r")
    while got != "0":
        got = client.read()
    return desk.pulses(since), left


def stops(kind, folder, short, seed):
    """Stops at random moments of straight movements, an arc and a loop."""
    chance = random.Random(seed)
    count = left = 100 if short else 1000
    runs = 0
    wanted = undisturbed(folder, MIXED)
    with Desk(kind, folder) as desk, Client(desk) as client:
        client.store("@07", MIXED)
        while left:
            check(client.ask("@07") == "0", "the axes are refused")
            pulses, left = stopped_run(desk, client, chance, left)
            check(pulses == wanted, "a stopped run makes other pulses than one never stopped")
            runs += 1
    print(f"  {count} stops over runs of {len(wanted)} pulses, {runs} in all; seed {seed}")


def haste(kind, folder, short, seed):
    """A stop is heard before the next clock call, even where one is always due."""
    with Desk(kind, folder, pace=0) as desk, Client(desk) as client:
        check(client.ask("@07") == "0", "the axes are refused")
        client.send(b"@0A 8000000,10000,0,30,0,30,0,30\r")
        desk.until(1000)
        client.send(STOP)
        check(client.read() == "F", "a stop is not heard while a clock call is due")
        stood = desk.made()
        check(stood < 8000000 and client.position() == [stood, 0, 0], "P is not where the pulses have led")
        client.send(BREAK)
        check(client.read() == "F" and desk.made() == stood, "a break does not end the movement")
    print("  a stop at full pace")
