"""Makes one input of `recline collect` of the files of many reporters.

    python3 -m recline_report rank0.notes rank1.notes > run.reports
    python3 -m recline_report --after run.reports --failed 0 --failed 1 rank*.notes > next.reports

Files that were cut off are taken up to their last whole line. With `--after` an input that was made
before, up to a recovery, stands before them. With `--failed`, which may be repeated, a recovery
stands at the end. Statuses: 0; 2 where the files do not fit together; 3 where one cannot be read or
written.
"""

import argparse
import sys

from .merging import merge


def main() -> int:
    """Merges, and answers the status."""
    form = argparse.RawDescriptionHelpFormatter
    words = argparse.ArgumentParser("recline_report", description=__doc__, formatter_class=form)
    words.add_argument("files", nargs="+", metavar="FILE", help="the notes of a process")
    words.add_argument("--after", metavar="FILE", help="an input up to a recovery")
    words.add_argument("--failed", action="append", type=int, default=[], metavar="PROCESS")
    asked = words.parse_args()
    try:
        merge(asked.files, sys.stdout.buffer, asked.after, asked.failed)
    except ValueError as error:
        print(error, file=sys.stderr)
        return 2
    except OSError as error:
        print(error, file=sys.stderr)
        return 3
    return 0


if __name__ == "__main__":
    sys.exit(main())
