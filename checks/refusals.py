"""Looks where the sources make an *out of memory*, a `Gone`, or a submit that is `Open` or
`Closed`: in the branch of a call that failed, or below a comment that says why.

Contracts cannot see the allocator or the other end of a channel, so they allow a function to answer
so at any time.
"""

import re
import sys
from itertools import takewhile
from pathlib import Path

from harness.words import given_words

ROOT = Path(__file__).resolve().parent.parent
# A refusal as a value, and not as the pattern of an arm or a part of a type.
MADE = re.compile(
    r"\b(?:(?:AllocError|NoMemory)\b(?=[),;]|$)(?!.*=>)|Gone(?: \{ |::)|RecvError\b(?=[),;])"
    r"|of_refused\(|SubmitFault::(?:Open|Closed)\b(?!.*=>))"
)
# What imports, clauses and types say of it.
SAID = re.compile(
    r"\s*(?://|use |ghost|ensures|requires|NoMemory\b)|(?!\s*let ).*(?:\) -> |Result<)"
)
# On the line itself: a refusal is passed on, under another name or under its own.
PASSED_ON = re.compile(
    r"(?:\bErr\(.*|\w*NoMemory\b.*|PutFault::Held|OutOfMemory\b.*|Disconnected) => |map_err\(\|_\| "
)
# What opens the block around it: the branch of a call that failed, or a function that converts a
# refusal.
FAILED = re.compile(
    r"\blet Ok\(.*\{$|\bErr\(.*\) => \{$|\.is_err\(\) \{$|OutOfMemory \{$|fn (?:from|of_\w+)\b"
)
REASON = re.compile(r"// (?:Never|Refused): ")
# Tests and examples refuse on purpose.
TRIES = ("tests_", "kit_", "check_", "bench_")


def sources():
    for crate in sorted(ROOT.glob("crates/*")):
        if not crate.name.startswith(TRIES):
            yield from sorted(crate.glob("src/**/*.rt"))


def depth(line):
    return len(line) - len(line.lstrip())


def opening(lines, number):
    """The number of the line that opens the block around this one: a branch, or the head of its
    function."""
    inner = depth(lines[number])
    for at in reversed(range(number)):
        if lines[at] and depth(lines[at]) < inner and lines[at].strip() != "{":
            return at
    return 0


def has_reason(lines, number):
    """Whether comments stand above the line, one of which says why."""
    above = takewhile(lambda line: line.lstrip().startswith("//"), reversed(lines[:number]))
    return any(REASON.search(line) for line in above)


def unexplained(path):
    """The lines of the file that make a refusal, and not for a reason that can be seen."""
    lines = path.read_text(encoding="utf-8").splitlines()
    for number, line in enumerate(lines):
        if SAID.match(line) or not MADE.search(line) or PASSED_ON.search(line):
            continue
        outer = opening(lines, number)
        is_said = has_reason(lines, number) or has_reason(lines, outer)
        if not FAILED.search(lines[outer]) and not is_said:
            yield number + 1


def main():
    given_words()
    found = [(path, number) for path in sources() for number in unexplained(path)]
    for path, number in found:
        print(f"{path.relative_to(ROOT)}:{number}: a refusal, and no call failed")
    if found:
        sys.exit("refusals: say above each in a comment `// Refused: ..` or `// Never: ..` why")
    print("refusals: each out of memory and each gone end has its reason")


if __name__ == "__main__":
    main()
