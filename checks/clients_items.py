"""What each script of a client of others shows, in this order. Each function of the scripts in
Python has the name of its item."""

import os
import sys

ITEMS = (
    "kept_and_read_back",
    "subscriptions",
    "properties_and_expiry",
    "limits",
    "identifiers",
    "clear",
    "refusals",
    "unicode_topics",
    "many",
)

# The topics of the last two items. Each message is its topic.
UNICODE_TOPICS = ["Zürich/Temperatur", "東京/温度", "🌡/°C"]
MANY_TOPICS = [f"many/{number % 100}/{number}" for number in range(10_000)]
MANY_SHOWN = f"{len(MANY_TOPICS):,} retained messages in order, granted QoS"


def in_order(topics):
    """The topics as a server sends them: level by level."""
    return sorted(topics, key=lambda topic: topic.split("/"))


def show_all(functions):
    """Calls the functions of a script, given by name."""
    for item in ITEMS:
        functions[item]()


def shown(item, is_right):
    """Prints a line for an item, or ends the script."""
    if not is_right:
        sys.exit(f"{os.path.basename(sys.argv[0])}: {item}: not as it should be")
    print(item, flush=True)
