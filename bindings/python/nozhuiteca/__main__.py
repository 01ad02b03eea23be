"""python3 -m nozhuiteca FILE: writes whether a file is accepted, or why not. Status 1 if it is refused, 2 if it cannot be read."""

from __future__ import annotations

import sys

from . import open as open_file


def main(words: list[str]) -> int:
    """The status of the program."""
    if len(words) != 1:
        print("Usage: python3 -m nozhuiteca FILE", file=sys.stderr)
        return 2
    try:
        file = open_file(words[0])
    except OSError as error:
        print(f"{words[0]} cannot be read: {error.strerror}.", file=sys.stderr)
        return 2
    print(f"{words[0]} is {file.verdict}.")
    return 0 if file.accepted else 1


if __name__ == "__main__":
    sys.exit(main(sys.argv[1:]))
