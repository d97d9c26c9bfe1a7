"""What P and b report: every hexadecimal digit at every place. The digits are Python's."""
from case import case, host, line, where


def at(k):
    """The number of 24 bits whose digits are k, k + 1 and so on, after F again 0."""
    n = sum((k + i) % 16 << 4 * (5 - i) for i in range(6))
    return n - 2 ** 24 if n >= 2 ** 23 else n


case("digits_of_positions", "P: each of the sixteen digits at each of the six places, on every axis; from 8 on the number is negative",
     *[step for k in range(16) for p in [(at(k), at(k + 5), at(k + 10))]
       for step in (host(*["H %s %d" % pair for pair in zip("xyz", p)]), where(*p))])
case("digits_of_ports", "b: every byte, two digits, at each port",
     *[step for v in range(256) for step in (host("I " + " ".join("%d" % (v if q == v % 4 else 255 - v) for q in range(4))), line("@0b%d" % (v % 4), "0%02X" % v))])
