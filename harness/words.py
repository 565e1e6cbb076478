"""The words that a script is given, its own name, and the checks that the words name."""

import sys
from pathlib import Path

NAME = Path(sys.argv[0]).stem


def given_words(*known):
    """The words after the script's name.

    One that is not known ends the script with status 2: a slip must not look like a success.
    """
    words = sys.argv[1:]
    for word in words:
        if word not in known:
            wanted = " ".join(["nothing or some of", *known]) if known else "nothing"
            print(f"{NAME}: {word!r} is not known: give {wanted}", file=sys.stderr)
            sys.exit(2)
    return words


def run_named(checks):
    """Runs all checks, or those whose names are given. The first that fails ends the script."""
    names = given_words(*(check.__name__ for check in checks))
    chosen = [check for check in checks if check.__name__ in names or not names]
    for check in chosen:
        try:
            check()
        except (AssertionError, OSError, RuntimeError) as error:
            sys.exit(f"{NAME}: {check.__name__}: {error}")
    print(f"{NAME}: {', '.join(check.__name__.replace('_', ' ') for check in chosen)}")
