"""Keeps messages in the real files of a journal, and looks at what an opening finds.

The program check_journal opens and keeps, and answers with what it finds. The files lie in memory
where the system has a folder for that, since each opening syncs them.
"""

import contextlib
import fcntl
import os
import struct
import sys
import tempfile
from pathlib import Path

from harness.journal import FILES, FOLDER, Shell, numbered, set_record
from harness.program import most_memory
from harness.words import run_named

# As many topics as a store may have, and how many messages a commit has.
TOPICS, CHANGES = 65_536, 64
# The bytes of the longest topic, and of the longest payload beside the length of no properties.
LONGEST_TOPIC, LONGEST_PAYLOAD = 65_535, 262_143
# How many messages of the longest payload 64 MB are, and how many bytes may be held to find them.
LARGE, HELD = 256, 96 << 20
# A page of the log, and what stands before the first: of a commit of one page each byte is changed.
FRAME = 24 + 1024
# A lock of all of a file for writing, which lasts until the file is closed.
LOCK = struct.pack("hhqqi4x", fcntl.F_WRLCK, os.SEEK_SET, 0, 0, 0)
# What lets root write where it has no permission, and is taken from it.
POWERLESS = ["setpriv", "--bounding-set=-dac_override"]


@contextlib.contextmanager
def shell():
    """The program in a folder of its own, and the folder."""
    with tempfile.TemporaryDirectory(dir=FOLDER) as folder, Shell(folder) as opened:
        yield opened, Path(folder)


def bytes_in(folder):
    """The bytes of each file, by its name."""
    return {path.name: path.read_bytes() for path in Path(folder).iterdir()}


class Damage:
    """Two commits of one message each, and how many of them are found once files were changed."""

    def __init__(self, journal, folder):
        self.journal, self.folder = journal, folder
        first, second = numbered(0, 700), numbered(1, 700)
        self.prefixes = [b"", first, first + second]
        journal.do("open")
        for record in (first, second):
            journal.push(record)
            journal.do("commit")
        self.pages, self.log = (bytes_in(folder)[name] for name in FILES)

    def commits(self, log, what):
        """How many commits are found if the log has these bytes."""
        self.journal.do("close")
        for name, data in zip(FILES, (self.pages, log)):
            (self.folder / name).write_bytes(data)
        found = self.journal.found()
        if found not in self.prefixes:
            sys.exit(f"{what}: {found.hex()} found, which are not whole commits")
        return self.prefixes.index(found)

    def lengths(self):
        """At how many lengths of the log no commit is found, and one, and the first lengths at
        which one and both are: behind that the log has room, and nothing else."""
        counts, before, first = [0, 0], 0, 0
        for length in range(len(self.log)):
            found = self.commits(self.log[:length], f"{length} bytes of the log")
            if found < before:
                sys.exit(f"{length} bytes of the log: {found} commits, and {before} before")
            if found == 2:
                return counts, first, length
            if found > before:
                first = length
            before = found
            counts[found] += 1
        sys.exit("no length of the log has both commits")

    def changes(self, start, end):
        """After how many changes of one of these bytes no commit is found, one, and both."""
        counts = [0, 0, 0]
        for at in range(start, end):
            changed = bytearray(self.log)
            changed[at] ^= 0x5A
            counts[self.commits(changed, f"byte {at} of the log")] += 1
        return counts


def damage():
    """With each length of the log, whole commits are found, and no fewer with a longer one. With a
    byte of the last commit changed, all before it is found."""
    with shell() as (journal, folder):
        files = Damage(journal, folder)
        cut, first, both = files.lengths()
        changed = files.changes(first, both)
    if 0 in cut:
        sys.exit(f"a log that is cut off: none and one of two commits {cut} times")
    if changed[0] != 0 or changed[2] != 0 or changed[1] < FRAME:
        sys.exit(f"a byte of the last commit: none, one and both of two commits {changed} times")
    print(f"a log cut off at {sum(cut)} lengths, and {changed[1]} bytes changed: whole commits")


def pages_of(journal, records, is_often):
    """Pushes records, commits often or once behind them all, opens the files anew and looks at what
    is found. The pages that they take."""
    for at in range(0, len(records), CHANGES):
        journal.push(b"".join(records[at : at + CHANGES]))
        if is_often:
            journal.do("commit")
    journal.do("commit")
    pages = int(journal.do("pages"))
    journal.do("checkpoint")
    if journal.found() != b"".join(records):
        sys.exit(f"{len(records)} messages were pushed, and others are found")
    return pages


def many():
    """Messages of all topics with all properties, the longest topic and the longest payload are
    found again, as they were pushed by many commits, and by one that began anew."""
    records = [numbered(number, 100) for number in range(TOPICS)]
    records.append(set_record(b"t" * LONGEST_TOPIC, 1))
    records.append(set_record(b"ttt", LONGEST_PAYLOAD))
    with shell() as (journal, _):
        journal.do("open")
        often = pages_of(journal, records, is_often=True)
        journal.do("anew")
        once = pages_of(journal, records, is_often=False)
    if once >= often:
        sys.exit(f"{once} pages of one commit, and {often} of many")
    print(f"{TOPICS:,} topics with all properties: {often} pages by many commits, {once} by one")


def pieces():
    """Messages of 64 MB are found with no second 64 MB, in the log and in the file of pages."""
    with tempfile.TemporaryDirectory(dir=FOLDER) as folder:
        with Shell(folder) as journal:
            journal.do("open")
            for number in range(LARGE):
                journal.push(numbered(number, LONGEST_PAYLOAD, False))
            journal.do("commit")
        most = []
        for _ in range(2):
            with Shell(folder) as journal:
                if int(journal.do("retain")) != LARGE:
                    sys.exit(f"not all of {LARGE} messages of {LONGEST_PAYLOAD} bytes are found")
                most.append(most_memory(journal.run.pid) * 1024)
                journal.do("checkpoint")
    if max(most) > HELD:
        sys.exit(f"{most} bytes held to find {LARGE} messages of {LONGEST_PAYLOAD} bytes")
    print(f"{LARGE} messages of {LONGEST_PAYLOAD} bytes: found with {max(most) >> 20} MB")


def refused(folder, text, before=(), words=("open",)):
    """An opening by this command is refused for this reason, and leaves each file as it is."""
    kept = bytes_in(folder)
    with Shell(folder, before) as journal:
        is_done, reason = journal.ask(*words)
    if is_done or text not in reason:
        sys.exit(f"an opening is not refused for {text}: {reason[:80]}")
    # A file that is missing may be made, empty.
    after = {name: data for name, data in bytes_in(folder).items() if name in kept or data}
    if after != kept:
        sys.exit(f"{text}: {sorted(kept)} before, {sorted(after)} after, or other bytes")


def keep_some(folder):
    """Keeps a message in files of this folder."""
    with Shell(folder) as journal:
        journal.do("open")
        journal.push(numbered(0, 100))
        journal.do("commit")
        journal.do("checkpoint")


def pages_and_log(is_copied):
    """The bytes of the file of pages, and of its log, after a commit. If it is copied, the log has
    its head alone, and else the file of pages has."""
    with shell() as (journal, folder):
        journal.do("open")
        journal.push(numbered(0, 100))
        journal.do("commit")
        if is_copied:
            journal.do("checkpoint")
        journal.do("close")
        kept = bytes_in(folder)
        return [kept[name] for name in FILES]


def refused_with(pages, log, text):
    """Files with these bytes are refused for this reason, synced or not. Either may be missing."""
    with tempfile.TemporaryDirectory(dir=FOLDER) as folder:
        for name, data in zip(FILES, (pages, log)):
            if data is not None:
                Path(folder, name).write_bytes(data)
        refused(folder, text)
        refused(folder, text, words=("unsynced", 1, numbered(0, 100).hex()))


def foreign():
    """Swapped files, a log whose file of pages is missing or empty, and foreign files in the place
    of either are refused, and keep each byte."""
    text = b"A letter.\n" * 300
    for is_copied in (False, True):
        pages, log = pages_and_log(is_copied)
        refused_with(log, pages, "Foreign")
        refused_with(text, log, "Foreign")
        refused_with(text[:9], log, "Foreign")
        refused_with(text, text, "Foreign")
        refused_with(text, b"", "Foreign")
        refused_with(pages, text, "ForeignLog")
        for name in (pages, text):
            refused_with(b"", name, "LoneLog")
        other = pages[:7] + b"\x02" + pages[8:]
        refused_with(other, log, "Version(2)")
    log = pages_and_log(is_copied=False)[1]
    refused_with(b"", log, "LoneLog")
    refused_with(None, log, "LoneLog")
    print("swapped and foreign files, and a log without its pages: refused, and kept")


def held():
    """Files that another process has are not opened."""
    with tempfile.TemporaryDirectory(dir=FOLDER) as folder:
        keep_some(folder)
        for name in FILES:
            with open(f"{folder}/{name}", "r+b") as file:
                fcntl.fcntl(file, fcntl.F_OFD_SETLK, LOCK)
                refused(folder, "Busy")
    print("files of which another process has one: refused")


def read_only():
    """In a folder where nothing can be made, and over files that cannot be written, nothing is
    opened."""
    before = POWERLESS if os.geteuid() == 0 else []
    with tempfile.TemporaryDirectory(dir=FOLDER) as folder:
        os.chmod(folder, 0o500)
        refused(folder, "PermissionDenied", before)
        os.chmod(folder, 0o700)
        keep_some(folder)
        for name in FILES:
            os.chmod(f"{folder}/{name}", 0o400)
            refused(folder, "PermissionDenied", before)
            os.chmod(f"{folder}/{name}", 0o600)
    print("a folder and files that can only be read: refused")


def main():
    run_named((damage, many, pieces, foreign, held, read_only))


if __name__ == "__main__":
    main()
