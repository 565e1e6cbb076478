"""The worked examples, read from their file. The head of the file says how they are written."""

from dataclasses import dataclass, field

from harness.client import Client
from harness.program import crate

FILE = crate("check_tasks") / "data" / "examples.txt"


@dataclass
class Connection:
    """What a client sends, and what it is answered, in turns: pairs of bytes."""

    moments: list[int] = field(default_factory=list)
    turns: list[tuple[bytes, bytes]] = field(default_factory=list)

    def sent(self):
        return b"".join(sent for sent, _ in self.turns)

    def replies(self):
        return b"".join(replies for _, replies in self.turns)

    def add(self, data, is_reply):
        sent, replies = self.turns.pop() if self.turns else (b"", b"")
        if is_reply:
            self.turns.append((sent, replies + data))
        elif replies:
            self.turns += [(sent, replies), (data, b"")]
        else:
            self.turns.append((sent + data, b""))


@dataclass
class Example:
    name: str
    topics: int | None = None
    connections: list[Connection] = field(default_factory=list)

    def has_no_clock(self):
        """Whether it is the same at every moment."""
        return not any(own.moments for own in self.connections)

    def talk(self, server):
        """A client for each connection, one after the other, is answered as the example says."""
        for connection in self.connections:
            with Client(server) as client:
                for sent, answer in connection.turns:
                    client.ask(sent, answer)
                client.half_close()
                client.take_end()


def words_bytes(words, names, number):
    """The bytes of some words in the repetition of this number."""
    own = {"N": number.to_bytes(2, "big"), "T": b"%04x" % number}
    return b"".join(own.get(word) or names.get(word) or bytes.fromhex(word) for word in words)


def line_bytes(words, names):
    """The bytes of a line, repeated if it says so."""
    if words and words[0].endswith(":"):
        first, last = map(int, words[0][:-1].split(".."))
        numbers = range(first, last + 1)
        return b"".join(words_bytes(words[1:], names, number) for number in numbers)
    return words_bytes(words, names, 0)


def examples():
    """All examples of the file."""
    names, found, open_one = {}, [], Connection()
    with open(FILE) as file:
        lines = [line.split() for line in file if line.strip() and not line.startswith("#")]
    for word, *rest in lines:
        if word == "example":
            found.append(Example(" ".join(rest)))
        elif word in "<>":
            open_one.add(line_bytes(rest, names), word == "<")
        elif word == "at":
            open_one.moments = [int(moment) for moment in rest]
        elif word == "topics":
            found[-1].topics = int(rest[0])
        elif word == "ends":
            found[-1].connections.append(open_one)
            open_one = Connection()
        elif rest and rest[0] == "=":
            names[word] = line_bytes(rest[1:], names)
        elif word != "stored":
            raise ValueError(f"{FILE}: {word} {rest}")
    return found
