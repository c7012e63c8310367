"""python3 -m duggfrask why FILE, and list FILE: what the command of that name prints, with its exit status."""

from __future__ import annotations

import sys
from typing import List

from . import Refused, Site, list_file
from ._plan import start_of


def main(words: List[str]) -> int:
    if len(words) != 2 or words[0] not in ("why", "list"):
        print("usage: python3 -m duggfrask why FILE | list FILE", file=sys.stderr)
        return 2
    try:
        file = start_of(words[1])
        if words[0] == "list":
            text = list_file(file)
            sys.stdout.write(text)
            return 1 if text.startswith("refused") else 0
        text = Site.from_bytes(file).why()
    except (OSError, Refused) as error:
        print("%s: %s" % (words[1], error.strerror if isinstance(error, OSError) else error), file=sys.stderr)
        return 1
    sys.stdout.write(text)
    last = text.splitlines()[-1]
    return 0 if last.startswith("planned") else 1 if last.startswith("full") else 3


if __name__ == "__main__":
    sys.exit(main(sys.argv[1:]))
