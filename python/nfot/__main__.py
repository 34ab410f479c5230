"""python3 -m nfot: the command `nfot-py`."""
import sys

from .faults import SHORT

try:
    from .tools import main
except MemoryError:
    sys.exit(f"nfot-py: {SHORT}")

if __name__ == "__main__":
    sys.exit(main())
