#!/usr/bin/env python3
"""A slow third opinion on the sheet: the nearest whole number from the exact value as a fraction.

Reads lines of 70 bytes as `sheet_vectors` and the trial's `sheet_main` do and prints the same.
"""
import struct
import sys
from fractions import Fraction


def real(bits):
    return struct.unpack(">d", bytes.fromhex(bits))[0]


def integer(bits):
    return struct.unpack(">q", bytes.fromhex(bits))[0]


def nearest(value):
    exact = Fraction(value)
    whole = (2 * abs(exact) + 1) // 2
    return int(whole if exact > 0 else -whole)


def convert(kind, lead, steps, gear, value):
    lead, steps, gear = real(lead), real(steps), real(gear)
    if not all(0.001 <= v <= 1000000.0 for v in (lead, steps, gear)):
        return 201, 0
    v = integer(value) if kind == "N" else real(value)
    if not (-1000000 if kind == "D" else 0) <= v <= 1000000:
        return 202, 0
    if kind == "D":
        v = v / lead
        v = v * steps
        v = v * gear
    elif kind != "N":
        v = v * steps
        v = v * gear
        v = v / lead
        v = v / 60.0 if kind == "M" else v
    low, high = (-8388608, 8388607) if kind == "D" else (30, 10000)
    whole = nearest(v)
    return (0, whole) if low <= whole <= high else (203, 0)


for line in sys.stdin:
    print(*convert(*line.split()))
