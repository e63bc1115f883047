"""`python3 -m cicelybeam` is the command `cicelybeam`."""
from __future__ import annotations

import sys


def main(arguments: list[str] | None = None) -> int:
    """The command. Ctrl-C ends it with one line, also while it still loads numpy and others: hence the import here."""
    try:
        from .command import main as command

        return command(arguments)
    except KeyboardInterrupt:
        from .outputs import remove_begun

        remove_begun()
        print("cicelybeam: interrupted; no output is left half written", file=sys.stderr)
        return 130


if __name__ == "__main__":
    sys.exit(main())
