"""Requests to a server with `--metrics`, and the numbers that it tells. Part of
`checks/metrics`.
"""

import re
import socket
from contextlib import contextmanager
from time import monotonic, sleep

from checks.listening_messages import wanted
from harness.patience import PATIENCE

GET = b"GET /metrics HTTP/1.1\r\nHost: a\r\n\r\n"
HEALTH = GET.replace(b"metrics", b"healthz")
RESIDENT = "rstored_resident_memory_bytes"
TEXT_TYPE = b"content-type: text/plain; version=0.0.4; charset=utf-8"

LABEL = r'[a-z_]+="[a-z0-9_]+"'
SAMPLE = re.compile(rf"([a-z_]+(?:{{{LABEL}(?:,{LABEL})*}})?) ([0-9]+(?:e-6)?)")
COMMENT = re.compile(r"# (?:HELP [a-z_]+ .+\.|TYPE [a-z_]+ (?:counter|gauge))")


@contextmanager
def asking(server):
    """A connection to where the numbers are told."""
    host, port = server.metrics
    family = socket.AF_INET6 if ":" in host else socket.AF_INET
    with socket.socket(family) as asked:
        asked.settimeout(PATIENCE)
        asked.connect((host, port))
        yield asked


def read_all(asked):
    """All that comes until the server closes, in whatever way."""
    data = b""
    try:
        while part := asked.recv(65_536):
            data += part
    except ConnectionError:
        pass
    return data


def answered(server, *parts):
    """What is answered to a request that is sent in these parts: the status, the head's other
    lines, and the body."""
    with asking(server) as asked:
        for part in parts:
            asked.sendall(part)
        return split(read_all(asked))


def split(data):
    head, _, body = data.partition(b"\r\n\r\n")
    first, *fields = head.split(b"\r\n")
    found = re.fullmatch(rb"HTTP/1\.[01] ([0-9]{3}) [A-Z][A-Za-z ]*", first)
    wanted(found, f"{data[:100]!r} is no answer")
    return int(found[1]), fields, body


def text_of(server):
    """The numbers, as they are told."""
    status, fields, body = answered(server, GET)
    told = (status, TEXT_TYPE in fields, b"content-length: %d" % len(body) in fields)
    wanted(told == (200, True, True), f"the numbers come with {status} and {fields}")
    return body.decode("ascii")


def numbers_of(server):
    """Each number by its name and its labels. No two have the same."""
    numbers = {}
    for line in text_of(server).splitlines():
        if COMMENT.fullmatch(line):
            continue
        found = SAMPLE.fullmatch(line)
        wanted(found and found[1] not in numbers, f"the numbers have the line {line!r}")
        is_whole = found[2].isdecimal()
        numbers[found[1]] = int(found[2]) if is_whole else float(found[2])
    return numbers


def differences(server, expected, names):
    """What is told of each number, and what is expected, where they differ."""
    numbers = numbers_of(server)
    pairs = {name: (numbers.get(name), expected.get(name)) for name in names or numbers | expected}
    return {name: pair for name, pair in pairs.items() if pair[0] != pair[1] and name != RESIDENT}


def are_told(server, expected, names=None):
    """Just these numbers are told, or of these names at least. How much memory is resident is not
    compared. What was done last may be told a little later than it is answered."""
    start = monotonic()
    while other := differences(server, expected, names):
        wanted(monotonic() - start < PATIENCE, f"told, and expected: {other}")
        sleep(0.02)
