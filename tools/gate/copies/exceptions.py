"""What tools/gate/copies/allowed says may stand."""


class Allowed:
    """The exceptions, and which of them were of use."""

    def __init__(self, text):
        self.lines = {}
        for number, line in enumerate(text.split("\n"), 1):
            words = line.partition(" : ")[0].split()
            if words and not line.startswith("#"):
                self.lines[number] = (words[0], words[1:])
        self.matched = set()

    def pair(self, one, other):
        """Whether the exceptions let two copies stand."""
        for number, (name, files) in self.lines.items():
            is_listed = name in {one.name, other.name} and len(files) > 1 and {one.path, other.path} <= set(files)
            if is_listed and (one.path != other.path or files.count(one.path) > 1):
                self.matched.add(number)
                return True
        return False

    def single(self, name, path):
        """Whether the exceptions let a dead or an unused name stand."""
        found = {number for number, entry in self.lines.items() if entry == (name, [path])}
        self.matched |= found
        return bool(found)

    def left(self):
        """The lines that match nothing."""
        return [(number, entry[0]) for number, entry in self.lines.items() if number not in self.matched]
