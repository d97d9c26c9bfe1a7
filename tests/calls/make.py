#!/usr/bin/env python3
"""Writes NAME.in and NAME.out for every case, from the reasons in the group files."""
import os

import group_breaks
import group_circles
import group_circles_altered
import group_damage
import group_listing
import group_named
import group_programs
import group_refusals
import group_reports
import group_runs
import group_standing
import group_stops
import group_table
import group_table_filled
import group_table_refused
import group_turntable
import group_turntable_altered
from case import CASES

here = os.path.dirname(os.path.abspath(__file__))
assert len({name for name, _, _, _ in CASES}) == len(CASES)
for name, _, given, printed in CASES:
    assert len(given) < 20000 and len(printed) < 20000, name
    with open(os.path.join(here, name + ".in"), "w", newline="") as f:
        f.write(given)
    with open(os.path.join(here, name + ".out"), "w", newline="") as f:
        f.write(printed)
print(len(CASES), "cases")
