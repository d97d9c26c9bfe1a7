"""Runs the cases of tests/desk/run: cases.py [--short] SEED [CASE]... Each is tried on the emulated chip and on this machine."""
import sys
import tempfile
import time

from client import Wrong
from keeping import store
from playing import pins, timing, walks
from serving import flood, late, plugs
from stopping import haste, session, stops


def tried(case, kind, short, seed):
    """Whether a case is right."""
    print(f"{case.__name__}, {kind}:", flush=True)
    begun = time.monotonic()
    with tempfile.TemporaryDirectory() as folder:
        try:
            case(kind, folder, short, seed)
        except (Wrong, OSError) as why:
            print(f"FAILED: {case.__name__}, {kind}: {why}")
            return False
    print(f"  {time.monotonic() - begun:.1f} seconds", flush=True)
    return True


def main(words):
    short = words[:1] == ["--short"]
    seed, *names = words[1:] if short else words
    cases = [session, stops, haste, plugs, flood, store] + ([] if short else [late, walks, pins, timing])
    cases = [case for case in cases if not names or case.__name__ in names]
    right = [tried(case, kind, short, int(seed)) for case in cases for kind in ("chip", "native")]
    print(f"desk: {sum(right)} of {len(right)} cases are right")
    return 0 if all(right) else 1


sys.exit(main(sys.argv[1:]))
