"""Works a journal over real files, in which one allocation fails, and looks at what it keeps.

A call that is refused memory leaves what stood. A sync takes memory too (synced_files.c), so that a
commit may be in doubt: then a kill and a loss of power leave what stood before it or behind it. If
the program has no memory for itself, it ends, which is as good as a loss of power.
"""

import os
import shutil
import sys
import tempfile
from collections import Counter
from pathlib import Path

from harness.in_order import in_order
from harness.journal import FILES, FOLDER, Ended, Shell, numbered
from harness.program import preloaded

# What is kept, one commit behind the other: whether the journal begins anew, and the numbers of the
# messages that are pushed.
BATCHES = (
    (False, range(0, 3)),
    (False, range(3, 4)),
    (True, range(1, 9)),
    (False, range(9, 12)),
    (True, range(4, 5)),
)
# By the command: what is counted if it is refused.
KINDS = {
    "open": "an opening",
    "anew": "a new beginning",
    "push": "a push",
    "commit": "a commit",
    "checkpoint": "a checkpoint",
    "again": "a reading",
    "shorten": "a shortening",
    "retain": "a reading of what is retained",
}
DOUBT = "a commit in doubt"
END = "the program itself"


def record(number):
    """The record of the message of this number. Some take more than two pages."""
    return numbered(number, 3000 if number % 4 == 1 else 200)


class Wrong(Exception):
    """An answer that may not be given."""


class Session:
    """A session of the program, what has to stand in its files, and how often each kind of call was
    refused memory."""

    def __init__(self, folder, **options):
        self.folder, self.shell = Path(folder), Shell(folder, **options)
        self.refused = Counter()
        # The records that stand, and those that stand, too, if the command at hand is done.
        self.standing, self.after = b"", None
        # The numbers of the messages that were pushed.
        self.numbers = []

    def ask(self, command, *words):
        """What a command is answered, or `None`, and the fault if memory is refused."""
        is_done, text = self.shell.ask(command, *words)
        if is_done:
            return text, None
        if "OutOfMemory" not in text and "NoMemory" not in text:
            raise Wrong(f"{command} is refused: {text}")
        self.refused[KINDS[command]] += 1
        return None, text

    def lose_power(self):
        """Leaves of each file what was synced."""
        for name in FILES:
            synced = self.folder / f"{name}.synced"
            data = synced.read_bytes() if synced.exists() else b""
            (self.folder / name).write_bytes(data)

    def check_found(self, digits, what):
        """Fails unless these records stand, or those that the command at hand makes stand, which
        then do."""
        found = bytes.fromhex(digits)
        if found != self.standing and found != self.after:
            raise Wrong(f"{what}: {found.hex()[:200]}")
        self.standing = found

    def open_anew(self, has_power=False):
        """Opens the files after a loss of power, and once more if memory is refused."""
        self.shell.ask("close")
        if not has_power:
            self.lose_power()
        digits, fault = self.ask("open")
        if fault is not None:
            self.lose_power()
            digits = self.shell.do("open")
        self.check_found(digits, "an opening")

    def check_standing(self):
        """Reads again, once more if memory is refused."""
        digits, fault = self.ask("again")
        self.check_found(digits if fault is None else self.shell.do("again"), "a reading")

    def look_at_copy(self):
        """Looks at what a kill would leave."""
        with tempfile.TemporaryDirectory(dir=FOLDER) as other:
            for name in FILES:
                shutil.copy(self.folder / name, other)
            with Shell(other) as shell:
                found = shell.found()
        if found not in (self.standing, self.after):
            raise Wrong(f"a kill leaves {found.hex()[:200]}")

    def commit(self, is_anew, pushed):
        """Makes a commit of these records. The fault if memory is refused."""
        self.after = None
        commands = [("anew",)] * is_anew + [("push", pushed.hex())]
        for command in commands:
            _, fault = self.ask(*command)
            if fault is not None:
                return fault
        self.after = pushed if is_anew else self.standing + pushed
        return self.ask("commit")[1]

    def keep(self, is_anew, pushed):
        """Makes a commit, once more if it was refused, or was in doubt and nothing of it is
        found. A commit that was refused leaves what stood."""
        for _ in range(2):
            fault = self.commit(is_anew, pushed)
            if fault is None:
                self.standing = self.after
                return
            after = self.after
            if "Doubtful" in fault:
                self.refused[DOUBT] += 1
                self.look_at_copy()
                self.open_anew()
                if self.standing == after:
                    return
            else:
                self.after = None
                self.check_standing()
        raise Wrong("a commit is refused twice")

    def shorten(self):
        """Lets a Set of each message take the place of all operations, once more if it was refused.
        The batches have one Set for each topic, so what is retained are all of them, by topic."""
        messages = len(self.numbers)
        self.after = b"".join(map(record, sorted(self.numbers, key=lambda n: b"%d" % n)))
        for _ in range(2):
            _, fault = self.ask("shorten")
            if fault is None:
                self.standing = self.after
                break
            if "Doubtful" in fault:
                self.refused[DOUBT] += 1
                self.look_at_copy()
                self.open_anew()
            else:
                self.check_standing()
        else:
            raise Wrong("a shortening is refused twice")
        self.after = None
        self.shell.ask("close")
        counted, fault = self.ask("retain")
        if fault is not None:
            counted = self.shell.do("retain")
        if int(counted) != messages:
            raise Wrong(f"{counted} topics are retained, and not {messages}")

    def copy_log(self):
        """Copies the log. A checkpoint whose sync fails closes the journal."""
        _, fault = self.ask("checkpoint")
        if fault is None:
            return
        is_open, text = self.shell.ask("again")
        if not is_open:
            if "Closed" not in text:
                raise Wrong(f"behind a checkpoint: {text}")
            self.open_anew()

    def work(self):
        """Keeps all batches."""
        self.open_anew(has_power=True)
        for is_anew, numbers in BATCHES:
            self.numbers = [*([] if is_anew else self.numbers), *numbers]
            if is_anew:
                # An open journal has the memory for a new beginning already.
                self.open_anew(has_power=True)
            self.keep(is_anew, b"".join(map(record, numbers)))
            self.after = None
            self.check_standing()
            if is_anew:
                self.copy_log()
                self.check_standing()
            else:
                self.shorten()
                self.check_standing()
        self.open_anew(has_power=True)

    def end(self):
        """Works until all is kept, or the program has no memory for itself."""
        try:
            self.work()
            ended, wanted = self.shell.end(), (0, "")
        except Ended:
            self.refused[END] += 1
            ended, wanted = self.shell.end(), (1, "check_journal: out of memory\n")
        if ended != wanted:
            raise Wrong(f"status {ended[0]}, {ended[1]!r}")
        self.lose_power()
        with Shell(self.folder) as shell:
            self.check_found(shell.do("open"), "an opening behind the end")


def refusals():
    """Lets each allocation fail in turn.

    How often each kind of call was refused memory, in how many runs none that tells it was, and in
    how many runs an allocation failed.
    """
    with tempfile.TemporaryDirectory() as folder:
        libraries = [preloaded(name, folder) for name in ("failing_malloc", "synced_files")]
        return in_turn(":".join(libraries))


def run_refused(libraries, at):
    """One run in which the allocation of this number fails: how often each kind of call was refused
    memory, whether there was such an allocation, and what is wrong."""
    with tempfile.TemporaryDirectory(dir=FOLDER) as folder, tempfile.TemporaryFile() as told:
        numbers = {"FAIL_AT": at, "FAIL_COUNT": 1, "FAIL_TELL": told.fileno()}
        environment = {"LD_PRELOAD": libraries, **{key: str(own) for key, own in numbers.items()}}
        session, wrong = Session(folder, env=environment, pass_fds=[told.fileno()]), None
        try:
            session.end()
        except Wrong as error:
            wrong = error
        return session.refused, told.seek(0, os.SEEK_END) > 0, wrong


def in_turn(libraries):
    refused, untold = Counter(), 0
    runs = in_order(lambda at: run_refused(libraries, at))
    for at, (counts, was_refused, wrong) in enumerate(runs, 1):
        if wrong is not None:
            sys.exit(f"a journal, allocation {at}: {wrong}")
        if not was_refused:
            if counts:
                sys.exit(f"a journal: {dict(counts)}, and no allocation failed")
            return refused, untold, at - 1
        refused.update(counts)
        untold += not counts
