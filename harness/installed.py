"""A server that Debian has, on the loopback."""

import socket
import subprocess
import tempfile
import time

from harness.patience import PATIENCE


class Installed:
    """A running server, which is killed at the end of a `with`. Each kind has its `words`: how it
    is started, so that it listens on its `port` and puts its files in its `folder`."""

    host = "127.0.0.1"

    def __enter__(self):
        with socket.socket() as free:
            free.bind((self.host, 0))
            self.port = free.getsockname()[1]
        self.made = tempfile.TemporaryDirectory()
        self.folder = self.made.name
        words = self.words()
        self.run = subprocess.Popen(words, stdout=subprocess.DEVNULL, stderr=subprocess.DEVNULL)
        start = time.monotonic()
        while not self.is_open():
            if self.run.poll() is not None or time.monotonic() - start > PATIENCE:
                raise RuntimeError(f"{words[0]} does not listen")
            time.sleep(0.01)
        return self

    def is_open(self):
        with socket.socket() as client:
            return client.connect_ex((self.host, self.port)) == 0

    def stop(self):
        self.run.kill()
        self.run.wait()

    def __exit__(self, *_):
        self.stop()
        self.made.cleanup()
