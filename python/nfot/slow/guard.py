"""Runs the slow program, and ends soon after the process that started it, however that one ended: `python3 guard.py FOLDER WORDS ..`.

It is run by the name of its file, and imports nothing of the package."""
import os
import runpy
import sys
import threading
import time

SECONDS, ENDED = 0.5, 143  # between two looks; the status of a run without its parent


def watch(parent: int) -> None:
    """Ends this process once it has another parent than at first."""
    while os.getppid() == parent:
        time.sleep(SECONDS)
    os._exit(ENDED)


if __name__ == "__main__":
    threading.Thread(target=watch, args=(os.getppid(),), daemon=True).start()
    del sys.argv[0]
    runpy.run_path(sys.argv[0], run_name="__main__")
