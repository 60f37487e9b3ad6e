"""Files in memory, and calls that fail."""

from .text import Refused


def read_fault():
    return Refused(70, "ReadFault", "fault: read")


def write_fault():
    return Refused(71, "WriteFault", "fault: write")


class Desk:
    """Files by name, and what was said. A call that fails is told by its kind and its number among those of the kind."""

    def __init__(self):
        self.files, self.said, self.failing = {}, [], {}

    def open(self, name):
        """The bytes of a file."""
        if name not in self.files:
            raise read_fault()
        return self.files[name]

    def say(self, line):
        self.said.append(line)

    def say_last(self, line):
        if 1 not in self.failing.get("last", []):
            self.said.append(line)
