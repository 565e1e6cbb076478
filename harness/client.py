"""A client over a plain socket, which sends bytes and expects bytes."""

import socket
import struct

from harness.packets import CONNACK, CONNECT, DISCONNECT, value
from harness.patience import PATIENCE


class Client:
    """A connection. What it waits for has to come before a guard's time is over."""

    def __init__(self, server, room=None):
        """`room` is the size of its receive buffer."""
        family = socket.AF_INET6 if ":" in server.host else socket.AF_INET
        self.socket = socket.socket(family)
        self.socket.settimeout(PATIENCE)
        if room is not None:
            self.socket.setsockopt(socket.SOL_SOCKET, socket.SO_RCVBUF, room)
        self.socket.connect((server.host, server.port))
        self.socket.setsockopt(socket.IPPROTO_TCP, socket.TCP_NODELAY, 1)
        self.reader = self.socket.makefile("rb")

    def __enter__(self):
        return self

    def __exit__(self, *_):
        self.close()

    def send(self, data):
        self.socket.sendall(data)

    def take(self, wanted):
        """Reads what has to come next."""
        data = self.reader.read(len(wanted))
        if data != wanted:
            pairs = enumerate(zip(data, wanted))
            at = next((at for at, (one, other) in pairs if one != other), len(data))
            came, missed = data[at : at + 20].hex(), wanted[at : at + 20].hex()
            raise AssertionError(f"after {at} bytes {came} came, and not {missed}")

    def take_packet(self):
        """Reads a packet, whatever it is."""
        head = self.take_bytes(2)
        while head[-1] > 127:
            head += self.take_bytes(1)
        length, _ = value(head, 1)
        return head + self.take_bytes(length)

    def take_bytes(self, count):
        data = self.reader.read(count)
        if len(data) < count:
            raise ConnectionError("the end came, and no whole packet")
        return data

    def ask(self, sent, replies):
        self.send(sent)
        self.take(replies)

    def connect(self):
        self.ask(CONNECT, CONNACK)
        return self

    def take_end(self):
        """Reads the end of what the server sends."""
        data = self.reader.read()
        if data:
            raise AssertionError(f"{data[:20].hex()} came, and not the end")

    def disconnect(self):
        """Ends the session, and waits for the server's end."""
        self.send(DISCONNECT)
        self.take_end()
        self.close()

    def half_close(self):
        """Sends no more, and still reads."""
        self.socket.shutdown(socket.SHUT_WR)

    def close(self):
        self.reader.close()
        self.socket.close()

    def reset(self):
        """Closes with a reset: the other side's reads and writes fail."""
        self.socket.setsockopt(socket.SOL_SOCKET, socket.SO_LINGER, struct.pack("ii", 1, 0))
        self.close()
