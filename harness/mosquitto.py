"""The broker mosquitto as a server on the loopback."""

from harness.installed import Installed

# Without the third line it would drop messages of a long replay.
CONFIGURATION = """
listener {port} 127.0.0.1
allow_anonymous true
max_queued_messages 0
persistence false
log_type none
"""


class Mosquitto(Installed):
    """A running mosquitto."""

    def __init__(self, more=""):
        """With more lines of configuration."""
        self.more = more

    def words(self):
        path = f"{self.folder}/mosquitto.conf"
        with open(path, "w") as file:
            file.write(CONFIGURATION.format(port=self.port) + self.more)
        return ["/usr/sbin/mosquitto", "-c", path]
