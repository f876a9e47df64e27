"""A service over the slow model that goes wrong at some of its records, which it counts from 1.

Usage: odd_service.py MISTAKE RECORD.. < RECORDS, where it makes this mistake at these records:
`memory`: answers that memory is out, and does nothing; `ends`: says something on standard error
and ends with status 3, the record done and not answered; `garbles`: answers what is no answer;
`deaf`: closes its input and ends a little later. `older`: at any record that has to do with `save`
it is as a program that does not know it.
"""

import os
import sys
import time

import serving  # where the slow model is

from slow_model import service as slow

IN_PLACE = {"memory": b"fault,0,OutOfMemory\n\n", "garbles": b"one,two\n\n"}


def end() -> None:
    """Says why, and ends."""
    sys.stderr.write("recline: record 0: 37 WriteFault\n")
    sys.stderr.flush()
    os._exit(3)


def main(mistake: str, records: set[int]) -> None:
    """Serves, one line at a time."""
    service = slow.Service()
    for number, line in enumerate(sys.stdin.buffer, 1):
        is_odd = number in records
        if is_odd and mistake == "deaf":
            os.close(0)
            time.sleep(0.2)
            end()
        if mistake == "older" and line.startswith((b"save", b"history,")):
            line = b"sned\n"
        answer = service.take(line) if mistake != "memory" or not is_odd else b""
        if is_odd and mistake == "ends":
            end()
        sys.stdout.buffer.write(IN_PLACE[mistake] if is_odd else answer)
        sys.stdout.buffer.flush()


if __name__ == "__main__":
    main(sys.argv[1], set(map(int, sys.argv[2:])))
