"""Runs the program with `--metrics`: each number that it tells is what the clients did, also while
they are connected; requests that are malformed, slow or without an end are refused or cut off, and
hold up nobody; and Prometheus' own tool finds no fault in the text.
"""

import shutil
import subprocess
import tempfile
from concurrent.futures import ThreadPoolExecutor
from contextlib import ExitStack
from time import monotonic, sleep, time

from checks.listening_messages import all_replayed, publish, subscribe, topic, wanted
from checks.metrics_requests import (
    GET,
    HEALTH,
    RESIDENT,
    answered,
    are_told,
    asking,
    numbers_of,
    read_all,
    split,
    text_of,
)
from checks.operating_idle import PINGREQ, PINGRESP, serves_the_next
from checks.operating_log import ENDS
from checks.operating_memory import counted
from harness import packets
from harness.client import Client
from harness.packets import (
    CONNACK,
    CONNECT,
    DISCONNECT,
    NO_SPACE,
    PUBACK,
    SUBACK,
    acknowledgement,
    pubrel,
    suback,
)
from harness.patience import PATIENCE
from harness.program import most_memory
from harness.server import Server
from harness.sessions import WAITING
from harness.words import run_named

ANY = "127.0.0.1:0"
# How a connection ends, as the log says it and as it is told.
REASONS = {
    "client disconnected": "client_disconnected",
    "end of input": "end_of_input",
    "input cut inside a packet": "input_cut",
    "closed by the server with 0x84": "closed_with_code",
    "closed by the server without a reply": "closed_without_reply",
    "the read failed or was idle": "read_failed_or_idle",
    "the write failed or was idle": "write_failed_or_idle",
    "out of memory": "no_memory",
}
OUTCOMES = ("stored", "store_full", "no_memory", "not_known")
ANSWERS = ("answered", "no_memory", "too_many_messages")
COUNTERS = (
    "connections_opened",
    "packets_received",
    "packets_sent",
    "received_bytes",
    "sent_bytes",
    "messages_replayed",
    "history_entries",
    "changes_sent",
)
GAUGES = ("clients", "topics", "retained_bytes", "changes_waiting")
PAYLOAD = b"x" * 100
# How many bytes a page of a journal has.
PAGE = 1_024
PUBREC, PUBREC_NO_SPACE = acknowledgement(0x50, 1), acknowledgement(0x50, 1, b"\x97")
PUBCOMP = acknowledgement(0x70, 1)
# How many requests are served at once, and for how many seconds at most.
TOGETHER, LONGEST = 8, 5
# How many descriptors it takes to tell numbers.
DESCRIPTORS = 11
PROMTOOL = shutil.which("promtool")


def ended(reason):
    return f'rstored_connections_ended_total{{reason="{reason}"}}'


def published(qos, outcome="stored"):
    return f'rstored_publications_total{{qos="{qos}",outcome="{outcome}"}}'


def cleared(outcome="stored"):
    return f'rstored_clears_total{{outcome="{outcome}"}}'


def filtered(outcome="answered"):
    return f'rstored_filters_total{{outcome="{outcome}"}}'


class Expected(dict):
    """What a server has to tell. At first nobody has done anything."""

    def __init__(self, server, clients, topics, memory=None):
        names = [f"rstored_{name}_total" for name in COUNTERS]
        names += [f"rstored_{name}" for name in GAUGES]
        names += [published(qos, outcome) for qos in range(3) for outcome in OUTCOMES]
        names += [*map(ended, REASONS.values()), *map(cleared, OUTCOMES), *map(filtered, ANSWERS)]
        super().__init__(dict.fromkeys(names, 0))
        self["rstored_clients_limit"], self["rstored_topics_limit"] = clients, topics
        self["rstored_writer_running"] = 1
        if memory is not None:
            self["rstored_retained_bytes_limit"] = memory
        start = "rstored_start_time_seconds"
        self[start] = numbers_of(server)[start]
        wanted(abs(self[start] - time()) < PATIENCE, "it started at another time")
        are_told(server, self)

    def rise(self, *names, by=1):
        for name in names:
            self[name] += by

    def connected(self):
        self.rise("rstored_clients", "rstored_connections_opened_total")
        self.moved(CONNECT, CONNACK)

    def left(self, reason="client_disconnected"):
        self.rise(ended(reason))
        self.rise("rstored_clients", by=-1)

    def moved(self, sent, answer):
        """A client sent whole packets, and was answered whole ones."""
        for what, data in ("received", sent), ("sent", answer):
            self.rise(f"rstored_{what}_bytes_total", by=len(data))
            self.rise(f"rstored_packets_{what}_total", by=len(list(packets.packets(data))))

    def changed(self, name, topics=0, held=0, entries=1):
        """A change was tried, and is told by this name."""
        self.rise(name, "rstored_changes_sent_total")
        self.rise("rstored_topics", by=topics)
        self.rise("rstored_retained_bytes", by=held)
        self.rise("rstored_history_entries_total", by=entries)

    def read(self, name, filters=1, messages=0):
        """Filters were asked for, and are told by this name."""
        self.rise(name, by=filters)
        self.rise("rstored_messages_replayed_total", by=messages)


def each_number():
    """Two clients do one thing after the other. After each, while they are connected, all numbers
    are as they have to be."""
    for places, clients in (2, 2), (1, 3):
        room = 4 * counted(topic(0), PAYLOAD) + 5
        limits = {"places": places, "clients": clients, "topics": 4, "memory": room}
        with Server(metrics=ANY, **limits) as server, ExitStack() as closed:
            expected = Expected(server, clients, 4, room)
            both = []
            for _ in range(2):
                both.append(closed.enter_context(Client(server).connect()))
                expected.connected()
                are_told(server, expected)
            for number, step in enumerate(steps()):
                sent, answer, *what = step
                both[number % 2].ask(sent, answer)
                expected.moved(sent, answer)
                for method, *values, named in what:
                    getattr(expected, method)(*values, **named)
                are_told(server, expected)
            for client in both:
                client.disconnect()
                expected.moved(DISCONNECT, b"")
                expected.left()
                are_told(server, expected)


def taken(number, payload, qos, expiry=None):
    """A retained PUBLISH for a topic, and what it is answered if it is taken. Behind one that is
    not answered comes a PINGREQ."""
    sent = packets.publish(topic(number), payload, qos, expiry=expiry)
    more = (PINGREQ, b"", pubrel(1))[qos]
    return sent + more, (PINGRESP, PUBACK, PUBREC + PUBCOMP)[qos]


def refused(number, payload, qos):
    """The same of one that is refused."""
    sent = packets.publish(topic(number), payload, qos)
    return sent + (PINGREQ, b"", b"")[qos], (PINGRESP, NO_SPACE, PUBREC_NO_SPACE)[qos]


def steps():
    """What is sent, what is answered, and what that does."""
    one, more = counted(topic(0), PAYLOAD), 5
    for number, qos in enumerate((0, 1, 2, 1)):
        done = ("changed", published(qos), {"topics": 1, "held": one})
        yield *taken(number, PAYLOAD, qos), done
    for qos in range(3):
        # A replacement, a topic too many, and a byte too many.
        yield *taken(qos, PAYLOAD, qos), ("changed", published(qos), {})
        full = ("changed", published(qos, "store_full"), {"entries": 0})
        yield *refused(4, PAYLOAD, qos), full
        no_memory = ("changed", published(qos, "no_memory"), {"entries": 0})
        yield *refused(qos, PAYLOAD + (more + 1) * b"x", qos), no_memory
    # It is not retained.
    plain = bytes([0x32]) + publish(topic(0), PAYLOAD)[1:]
    yield plain, PUBACK
    clear = publish(topic(3), b"")
    yield clear, PUBACK, ("changed", cleared(), {"topics": -1, "held": -one})
    yield clear, PUBACK, ("changed", cleared(), {})
    yield (
        subscribe(topic(0)),
        SUBACK + packets.publish(topic(0), PAYLOAD),
        ("read", filtered(), {"messages": 1}),
    )
    yield (
        subscribe(b"#", b"none/+"),
        suback(b"\x00\x00") + all_replayed(3, PAYLOAD),
        ("read", filtered(), {"filters": 2, "messages": 3}),
    )
    # No filter, and one that asks for no retained messages.
    yield subscribe(b"a#"), suback(b"\x8F")
    yield packets.subscribe([b"t/#"], options=0x20), SUBACK
    done = ("changed", published(1), {"topics": 1, "held": one + more})
    yield *taken(3, PAYLOAD, 1, expiry=1), done
    sleep(2.1)
    # The Sweep that makes space is an entry too.
    swept = ("changed", published(1), {"held": -more, "entries": 2})
    yield publish(topic(5), PAYLOAD), PUBACK, swept


def each_end():
    """Connections that end in each way are told by it, with their bytes and packets, also with more
    clients than places."""
    opened, received = "rstored_connections_opened_total", "rstored_packets_received_total"
    for clients in (1, 3):
        with Server(places=1, clients=clients, idle=1, metrics=ANY) as server:
            names = [ended(reason) for reason in REASONS.values()]
            names += [f"rstored_{name}_total" for name in COUNTERS[:5]]
            seen = dict.fromkeys(names, 0)
            for sent, answer, end, ending, count in ENDS:
                with Client(server) as client:
                    client.ask(sent, answer)
                    end(client)
                seen[opened] += 1
                seen[ended(REASONS[ending])] += 1
                seen[received] += count
                seen["rstored_packets_sent_total"] += len(list(packets.packets(answer)))
                seen["rstored_received_bytes_total"] += len(sent)
                seen["rstored_sent_bytes_total"] += len(answer)
                are_told(server, seen, names)
            # The last one never reads what waits for it.
            with Client(server, room=4096) as client:
                client.send(CONNECT + subscribe(b"l/#"))
                seen[opened] += 1
                seen[ended("write_failed_or_idle")] += 1
                seen[received] += 2
                are_told(server, seen, [*names[:-4], opened, received])


def a_journal():
    """With `--keep` it is told how many commits there were, how long they took, how many bytes they
    wrote, how many the journal has, and whether it refuses changes. A restart begins anew with all
    but the size."""
    with tempfile.TemporaryDirectory() as folder:
        size = 0
        for sync in "always", "second", "never":
            start = monotonic()
            with Server(places=1, metrics=ANY, keep=folder, sync=sync) as server:
                wanted(of_journal(server) == (0, 0, 0, size, 0), f"it begins with {sync} otherwise")
                for number in range(1, 4):
                    with Client(server).connect() as client:
                        client.ask(publish(topic(number), PAYLOAD), PUBACK)
                        client.disconnect()
                    commits, took, *others = told = of_journal(server)
                    # The first time, the log may be copied, and is synced by a commit before.
                    wanted(commits - number in (0, sync != "always"), f"{number} changes: {told}")
                    is_right = others == [PAGE * commits, size + PAGE * commits, 0]
                    wanted(is_right and 0 < took < monotonic() - start, f"told is {told}")
            size += PAGE * commits
    with Server(places=1, metrics=ANY) as server:
        told = [name for name in numbers_of(server) if name.startswith("rstored_journal")]
        wanted(not told, f"without a journal {told} are told")


def of_journal(server):
    """What is told of a journal."""
    names = ("commits_total", "commit_seconds_total", "bytes_written_total", "bytes", "refusing")
    numbers = numbers_of(server)
    return tuple(numbers[f"rstored_journal_{name}"] for name in names)


def a_long_answer(count=WAITING // 2 + 1):
    """A filter whose answer is longer than what may wait is told as such."""
    stored = all_replayed(count, b"x")
    with Server(places=1, topics=count, metrics=ANY) as server:
        with Client(server).connect() as client:
            client.ask(stored + subscribe(b"#", b"t/#"), suback(b"\x00\x97") + stored)
            numbers = {
                filtered(): 1,
                filtered("too_many_messages"): 1,
                published(0): count,
                "rstored_messages_replayed_total": count,
                "rstored_packets_sent_total": count + 2,
                "rstored_packets_received_total": count + 2,
                "rstored_changes_sent_total": count,
                "rstored_changes_waiting": 0,
                "rstored_topics": count,
            }
            are_told(server, numbers, numbers)
            client.disconnect()


def many_at_once(clients=64, rounds=200):
    """Of 64 clients that publish at once everything is counted, at a place of each or at four. The
    numbers are read meanwhile, and none falls that only rises."""

    def publishes(server, own):
        with Client(server).connect() as client:
            for number in range(rounds):
                client.send(publish(topic(own), b"%d" % number))
            for _ in range(rounds):
                client.take(PUBACK)
            client.disconnect()

    for places in (clients, 4):
        limits = {"places": places, "clients": clients}
        with Server(metrics=ANY, **limits) as server, ThreadPoolExecutor(clients) as threads:
            running = [threads.submit(publishes, server, own) for own in range(clients)]
            before = {}
            while not all(each.done() for each in running):
                numbers = numbers_of(server)
                rising = [name for name in before if "_total" in name]
                falls = [name for name in rising if numbers[name] < before[name]]
                wanted(not falls, f"{falls} fall")
                wanted(numbers["rstored_clients"] <= clients, "there are too many clients")
                before = numbers
            for each in running:
                each.result()
            done = clients * rounds
            numbers = {
                published(1): done,
                ended("client_disconnected"): clients,
                "rstored_connections_opened_total": clients,
                "rstored_clients": 0,
                "rstored_packets_received_total": done + 2 * clients,
                "rstored_packets_sent_total": done + clients,
                "rstored_history_entries_total": done,
                "rstored_changes_sent_total": done,
                "rstored_changes_waiting": 0,
                "rstored_topics": clients,
            }
            are_told(server, numbers, numbers)


HEAD = GET.replace(b"GET", b"HEAD")
# The most bytes that a request's head may have, and what cannot be read.
MOST = 8_192
MALFORMED = (
    CONNECT,
    b"\x16\x03\x01\x02\x00\x01\x00\x01\xfc\x03\x03",
    b"GET /metrics\r\n\r\n",
    b"GET /metrics HTTP/1.1\r\n\r\n",
    GET.replace(b"1.1", b"2.0"),
    GET.replace(b" /", b"  /"),
    GET.replace(b"\r\n", b"\n"),
    GET.replace(b"Host", b"Host "),
    GET.replace(b"a\r", b"a\r\nHost: b\r"),
    GET.replace(b"a\r", b"a\r\nContent-Length: x\r"),
    b"GET /metrics HTTP/1.1\r\nHost: \x00\r\n\r\n",
)
REQUESTS = (
    (GET, 200),
    (HEAD, 200),
    (HEALTH, 200),
    (b"GET /metrics HTTP/1.0\r\n\r\n", 200),
    (GET.replace(b"metrics", b"metrics?name=up"), 200),
    (GET.replace(b"metrics", b""), 404),
    (GET.replace(b"metrics", b"Metrics"), 404),
    (GET.replace(b"metrics", b"metrics/"), 404),
    (GET.replace(b"GET", b"POST"), 405),
    (GET.replace(b"GET", b"get"), 405),
    (HEALTH.replace(b"GET", b"DELETE"), 405),
    *((sent, 400) for sent in MALFORMED),
    (b"GET /" + MOST * b"a", 414),
    (GET[:-2] + b"a: " + MOST * b"a", 431),
    (GET[:-2] + 1_000 * b"a: b\r\n" + b"\r\n", 431),
)


def requests():
    """Each request is answered as it has to be, whole or byte by byte, and counts for nothing."""
    with Server(metrics=ANY) as server:
        expected = Expected(server, 4, 10_000)
        for sent, status in REQUESTS:
            told = answered(server, sent)
            wanted(told[0] == status, f"{sent[:80]!r} is answered with {told[0]}")
            if len(sent) < 100:
                slowly = answered(server, *(sent[at : at + 1] for at in range(len(sent))))
                wanted(slowly[0] == status, f"byte by byte, {sent!r} is answered with {slowly[0]}")
        text, head = answered(server, GET), answered(server, HEAD)
        wanted(head == (200, text[1], b""), f"to HEAD it is answered {head}")
        health = answered(server, HEALTH)
        wanted(health[::2] == (200, b"the writer takes changes\n"), f"its health is {health}")
        # Only the first of two requests is answered, and what comes behind it is dropped.
        for more in (GET, GET + 100 * HEALTH, b"x" * 60_000):
            status, _, body = answered(server, HEALTH + more)
            wanted((status, body) == (200, health[2]), f"before more it is answered {body!r}")
        serves_the_next(server)
        expected.connected()
        expected.moved(PINGREQ + DISCONNECT, PINGRESP)
        expected.left()
        are_told(server, expected)


def slow_and_endless():
    """Eight requests are served at once, each for five seconds at most: who is silent, sends one
    byte after the other, or without an end, is cut off then or before. The next one waits for that
    long, and no client of MQTT does."""
    with Server(metrics=ANY) as server, ExitStack() as closed:
        expected, start = Expected(server, 4, 10_000), monotonic()
        silent = [closed.enter_context(asking(server)) for _ in range(TOGETHER)]
        for asked in silent[1:]:
            asked.sendall(GET[:-2])
        for _ in range(10):
            serves_the_next(server)
        wanted(answered(server, HEALTH)[0] == 200, "the next request is not answered")
        took = monotonic() - start
        wanted(took > LONGEST, f"the next one of {TOGETHER} requests waited for {took} seconds")
        for asked in silent:
            wanted(read_all(asked) == b"", "a request without an end is answered")
        endless = (
            (GET[:-2], b"a", None),
            (GET[:-2] + b"a: ", 4_096 * b"a", 431),
            (b"GET /", 4_096 * b"a", 414),
            (GET, 4_096 * b"a", 200),
            (GET, b"a", 200),
        )
        with ThreadPoolExecutor(len(endless)) as threads:
            for each in [threads.submit(goes_on, server, *given) for given in endless]:
                each.result()
        for _ in range(10):
            expected.connected()
            expected.moved(PINGREQ + DISCONNECT, PINGRESP)
            expected.left()
        are_told(server, expected)


def goes_on(server, request, part, answer):
    """A client that sends this without an end is answered so, if it is, and then cut off."""
    with asking(server) as asked:
        asked.sendall(request)
        try:
            while True:
                asked.sendall(part)
                sleep(0.05)
        except ConnectionError:
            pass
        data = read_all(asked)
    # A reset may take the answer with it.
    wanted(not data or split(data)[0] == answer, f"an endless request is answered {data[:99]!r}")


def the_text():
    """Prometheus' own tool finds no fault, where it is installed. The memory is that of the
    process, and an address of IPv6 does as well."""
    for address in (ANY, "[::1]:0"):
        with Server(metrics=address) as server:
            text = text_of(server)
            resident = numbers_of(server)[RESIDENT]
            # The system keeps both numbers with some delay.
            most = most_memory(server.run.pid) * 1024
            wanted(most / 2 < resident < 2 * most, f"{resident} bytes of {most} are resident")
        if PROMTOOL is None:
            continue
        words = {"input": text, "capture_output": True, "text": True, "timeout": PATIENCE}
        run = subprocess.run([PROMTOOL, "check", "metrics"], **words)
        told = (run.returncode, run.stdout, run.stderr)
        wanted(told == (0, "", ""), f"promtool says {told}")


def no_log():
    """The log has nothing of requests. At its end the server ends whoever asks."""
    with Server(places=1, connections=1, log=True, metrics=ANY) as server:
        for sent in (GET, HEALTH, *MALFORMED):
            answered(server, sent)
        with asking(server) as asked:
            asked.sendall(GET[:-2])
            Client(server).connect().disconnect()
            status, printed, errors = server.ended()
            wanted(read_all(asked) == b"", "a request without an end is answered")
    wanted((status, printed) == (0, "rstored: served 1\n"), f"it ends with {status}, {printed!r}")
    wanted(len(errors.splitlines()) == 2, f"the log is {errors!r}")


def few_descriptors(limit=40):
    """Numbers take eleven descriptors more, whether there are more clients than places or not."""
    inside = ("sh", "-c", f'ulimit -n {limit}; exec "$@"', "sh")
    for places, clients, others in ((25, 25, 4), (26, 26, 4), (1, 23, 6), (1, 24, 6)):
        options = {"places": places, "clients": clients, "connections": 1, "metrics": ANY}
        with Server(inside=inside, log=True, **options) as server:
            most = numbers_of(server)["rstored_clients_limit"]
            Client(server).connect().disconnect()
            _, _, errors = server.ended()
        needed = clients + others + DESCRIPTORS
        warning = f"{clients} clients need {needed} descriptors, and the process may have {limit}"
        is_told = errors.startswith(f"[WARN  rstored] {warning}\n")
        wanted(is_told == (needed > limit), f"the log is {errors!r}")
        served = clients if places == clients else min(clients, limit - others - DESCRIPTORS)
        wanted(most == served, f"{most} clients may be connected, and not {served}")


CHECKS = (
    each_number,
    each_end,
    a_journal,
    a_long_answer,
    many_at_once,
    requests,
    slow_and_endless,
    the_text,
    no_log,
    few_descriptors,
)


if __name__ == "__main__":
    run_named(CHECKS)
