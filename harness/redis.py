"""Redis as a server on the loopback, which keeps nothing on disk."""

import csv
import io
import subprocess

from harness.installed import Installed
from harness.patience import PATIENCE


class Redis(Installed):
    """A running Redis."""

    def words(self):
        words = ["redis-server", "--bind", self.host, "--port", str(self.port)]
        # No snapshots and no log: then only the memory holds what is set.
        return [*words, "--save", "", "--appendonly", "no", "--dir", self.folder]

    def set_rate(self, connections, count, keys, size, pipelined):
        """How many SET a second some connections send together, each so many at a time, over so
        many keys."""
        words = ["redis-benchmark", "-h", self.host, "-p", self.port, "-t", "set", "--csv"]
        words += ["-c", connections, "-n", count, "-r", keys, "-d", size, "-P", pipelined]
        run = subprocess.run(
            list(map(str, words)), capture_output=True, text=True, check=True, timeout=PATIENCE
        )
        rows = csv.DictReader(io.StringIO(run.stdout))
        return next(float(row["rps"]) for row in rows if row["test"] == "SET")
