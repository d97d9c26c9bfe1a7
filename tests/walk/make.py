#!/usr/bin/env python3
"""Writes NAME.in and NAME.out for every case, from the reasons in the group files."""
import os

import group_check
import group_circles
import group_circles_stored
import group_lines
import group_long
import group_movement
import group_programs
import group_turntable
import group_turntable_stored
from case import CASES

here = os.path.dirname(os.path.abspath(__file__))
assert len({name for name, _, _, _ in CASES}) == len(CASES)
for name, _, given, printed in CASES:
    assert len(given) < 50000 and len(printed) < 50000, name
    with open(os.path.join(here, name + ".in"), "wb") as f:
        f.write(given)
    with open(os.path.join(here, name + ".out"), "w", newline="") as f:
        f.write(printed)
print(len(CASES), "cases")
