"""The line: clients that come and go, bytes at full speed, and a client that reads late."""
import random
import threading
import time

from client import BREAK, RESET, STOP, Client, Desk, check, led, undisturbed


def plugs(kind, folder, short, seed):
    """A client that unplugs leaves its half line and its movement behind, and every byte passes."""
    with Desk(kind, folder) as desk:
        with Client(desk) as client:
            check(client.ask("@07") == "0", "the axes are refused")
            client.send(b"@0")
        with Client(desk) as client:
            check(client.ask("P", 19) == "0" * 19, "the half line is lost")
            client.send(b"@0z")
        with Client(desk) as client:
            client.send(BREAK)
            check(client.ask("") == "7", "the half line is lost, or a break has cleared it")
            check(client.ask("") == "5", "a return does not clear the line")
            client.send(b"@0z")
        with Client(desk) as client:
            client.send(RESET)
            check(client.ask("") == "5", "a reset does not clear the half line")
            check(client.ask("@07") == "0", "the axes are refused")
            client.send(b"@0A 300,1000,0,1000,0,300,0,300\r")
            desk.until(1)
        with Client(desk) as client:
            desk.until(300)
            client.quiet()
            check(client.position() == [300, 0, 0], "a movement suffers from an unplugged client")
            for byte in (0, 3, 4, 8, 10, 17, 19, 21, 22, 26, 28, 127, 128, 200, 252):
                client.send(b"@0P" + bytes([byte]))
                check(client.ask("") == "5", f"the byte {byte} does not pass")
    print("  clients that unplug in mid-line and in a movement; every byte passes")


def flood(kind, folder, short, seed):
    """Bytes at full speed while a program runs, with a stop among them."""
    chance = random.Random(seed)
    half = bytes(chance.randrange(253) for _ in range(10000 if short else 100000))
    program = ["0 500,1000,-300,1000,100,1000,-100,1000", "y800,1000,0,100,0,-1,-1", "3 1,-2" if short else "3 9,-2"]
    wanted = undisturbed(folder, program)
    with Desk(kind, folder) as desk, Client(desk) as client:
        client.store("@07", program)
        client.send(b"@0S\r")
        desk.until(1)
        client.send(half)
        client.send(STOP)
        check(client.read() == "F", "a stop among the bytes is not answered F")
        check(client.position() == led(desk.pulses()), "P is not where the pulses have led")
        client.send(b"@0S\r")
        client.send(half)
        check(desk.made() < len(wanted), "the bytes come after the program")
        check(client.read() == "0", "the program does not reach its end")
        check(desk.pulses() == wanted, "the pulses are others than those of an undisturbed run")
        check(client.position() == led(wanted), "the board is in disorder afterwards")
    print(f"  {2 * len(half)} bytes while it runs; seed {seed}")


def late(kind, folder, short, seed):
    """Lines that do not wait for their answers, from a client that begins to read when the line is full: none is lost."""
    count = 20000
    with Desk(kind, folder) as desk, Client(desk) as client:
        check(client.ask("@07") == "0", "the axes are refused")
        sender = threading.Thread(target=client.send, args=(b"@0P\r" * count,))
        sender.start()
        time.sleep(0.5)
        check(sender.is_alive(), "the line does not wait")
        for line in range(count):
            check(client.read(19) == "0" * 19, f"line {line} is answered otherwise")
        sender.join()
        check(client.quiet() == "", "there are too many answers")
    print(f"  {count} lines to a line that waits")
