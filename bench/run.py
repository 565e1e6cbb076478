"""Times the program, a tree of topics and a window on growing inputs, and fails if the time grows
much faster than the input. Times the codec, too, puts into a store of versions beside seats that
read it, and a journal.

Prints one line a measure. The programs have to be built. With `--once` each is run once, on its
small input, and nothing is timed: it only has to give what is right.
"""

import sys

from bench import codec, journal, piped, trees, versions, windows
from harness.words import given_words

# Each runs all of its measures: `is_fast` times them and says whether they are within their limits,
# and `once` runs each on a small input, and fails if its output is not right.
PARTS = (piped, trees, windows, versions, codec, journal)


def main():
    if given_words("--once"):
        for part in PARTS:
            part.once()
        print("bench: each measure was run once, and gave what is right")
    elif not all([part.is_fast() for part in PARTS]):
        sys.exit("bench: a measure is past its limit")


if __name__ == "__main__":
    main()
