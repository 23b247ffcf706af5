"""Prints what is wrong with dumps, as `mtrr-explain faults` does, which it runs:

    python -m mtrr [--json] FILE.."""
import sys

from ._library import NotFound, explain

if __name__ == "__main__":
    if not sys.argv[1:] or "-h" in sys.argv or "--help" in sys.argv:
        print(__doc__)
        sys.exit(0 if sys.argv[1:] else 2)
    try:
        sys.exit(explain(["faults", *sys.argv[1:]]))
    except NotFound as missing:
        sys.exit(f"mtrr: {missing}")
