"""python3 -m nfot.slow: the slow program with the words behind it, whichever program the package would take."""
import runpy

from nfot.slow import place

if __name__ == "__main__":
    runpy.run_path(place(), run_name="__main__")
