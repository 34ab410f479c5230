"""The program: `python3 tests/independent solve FILE --horizon 2` has the arguments, bytes and statuses of `nfot`."""
import os
import sys

sys.dont_write_bytecode = True
sys.path[0] = os.path.dirname(os.path.dirname(os.path.realpath(__file__)))

from independent.app import run  # noqa: E402  (the package is found only now)


def write(stream, text):
    """Writes all bytes to a stream of the operating system; whether it took them."""
    try:
        while text:
            text = text[os.write(stream, text):]
    except OSError:
        return False
    return True


def main():
    """Runs the program. Status 9: standard output takes no more. A fault of standard error changes no status."""
    status, output, error = run(sys.argv[1:])
    if not write(1, output):
        status, error = 9, b"nfot: output\n"
    write(2, error)
    return status


sys.exit(main())
