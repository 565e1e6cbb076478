"""Runs MQTT clients that others wrote against the program: mosquitto_pub and mosquitto_sub, paho
of Python, MQTT.js of Node.

They come from Debian's packages. A missing one is installed if that is allowed; else the check
fails if CI is set in the environment, and skips that client if it is not.
"""

import os
import subprocess
import sys

from harness import debian
from harness.patience import PATIENCE
from harness.program import ROOT
from harness.server import Server
from harness.words import given_words

MOSQUITTO = [sys.executable, "-m", "checks.clients_mosquitto"]
PAHO = ["/usr/bin/python3", "-m", "checks.clients_paho"]
NODE = ["node", "checks/clients_node.js", str(PATIENCE)]

# The packages of each client, how its items are run, and over how many places. Debian's Python has
# Debian's libraries.
CLIENTS = (
    ("mosquitto", ["mosquitto-clients"], MOSQUITTO, 1),
    ("paho", ["python3-paho-mqtt"], PAHO, 4),
    ("MQTT.js", ["node-mqtt"], NODE, 4),
)


def show(name, packages, words, places):
    if not debian.has(packages):
        return
    environment = {**os.environ, "NODE_PATH": "/usr/share/nodejs"}
    with Server(places=places, topics=65_536) as server:
        command = [*words, str(server.port)]
        pipes = {"stdout": subprocess.PIPE, "text": True}
        run = subprocess.run(command, cwd=ROOT, env=environment, **pipes)
    if run.returncode != 0:
        sys.exit(f"clients: {name} showed only this:\n{run.stdout}")
    versions = ", ".join(debian.version(package) for package in packages)
    print(f"clients: {name} {versions}: {len(run.stdout.splitlines())} items")


def main():
    given_words()
    for client in CLIENTS:
        show(*client)


if __name__ == "__main__":
    main()
