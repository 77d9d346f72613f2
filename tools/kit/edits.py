"""Wrong bodies as the files crates/*/wrong-bodies/*.edit have them, each with the right body of its shape, and the lots in which they are tried."""
import re

from kit import doubles, libraries

# What is said of a body: the prover has to refuse a wrong one, and to pass the right one of its shape.
REFUSED, PASSED, NOT_JUDGED = "refused", "passed", "not judged"


class Body:
    """A body to try a function with: what is written where in the stead of its own, and what has to be said of it."""

    def __init__(self, crate, name, function, pairs, due):
        self.crate, self.name, self.function, self.pairs, self.due = crate, name, function, pairs, due
        # The function's name where it is tried, which is another in a double.
        self.called = function
        # The right body of the same shape, if the file has one.
        self.control = None

    def own(self):
        """The body that its function has."""
        return Body(self.crate, self.name, self.function, [(file, old, old) for file, old, _ in self.pairs], PASSED)

    def with_control(self):
        """The body, and behind it the right one of its shape, if there is one."""
        return [self, self.control] if self.control else [self]

    def fits(self):
        """Whether it names a function, and each old text stands once in its file."""
        texts = {}
        for file, old, new in self.pairs:
            if not file or not old:
                return False
            texts.setdefault(file, (libraries.folder(self.crate) / file).read_text())
            if texts[file].count(old) != 1:
                return False
            texts[file] = texts[file].replace(old, new)
        return bool(self.pairs and self.function)

    def text(self):
        """The text of its function with this body, or None where it changes something else too."""
        text = doubles.text_of(libraries.folder(self.crate), self.function)
        for _, old, new in self.pairs:
            if text.count(old) != 1:
                return None
            text = text.replace(old, new)
        return text

    def folders(self):
        """Where the proofs of the function and of its closures stand."""
        *above, name = self.called.split("::")
        return ["/".join([*above, name]), "/".join([*above, "fn", name])]


def read(crate, name, text):
    """The wrong body of a file's text. Where a pair has no 'right', the right body has what is new of it."""
    wrong, right, file, old, is_controlled = [], [], None, None, False
    for line in text.splitlines():
        kind, _, rest = line.partition(": ")
        if kind == "file":
            file = rest.strip()
        elif kind == "old":
            old = rest
        elif kind == "new":
            wrong.append((file, old, rest))
            right.append((file, old, rest))
        elif kind == "right":
            right[-1:] = [(file, old, rest)]
            is_controlled = True
    function = (re.search(r"^fn: (.*)", text, re.M) or ["", ""])[1].strip()
    body = Body(crate, name, function, wrong, REFUSED)
    body.control = Body(crate, name, function, right, PASSED) if is_controlled else None
    return body


def bodies_of(named):
    """The wrong bodies of a crate, or one of them."""
    crate, _, name = named.partition("/")
    folder = libraries.folder(crate) / "wrong-bodies"
    return [read(crate, file.stem, file.read_text()) for file in sorted(folder.glob(f"{name or '*'}.edit"))]


def rounds(bodies):
    """The bodies and their controls in as few lots as may be: all in one, unless two of one function change something else too, or it is a
    trait's method."""
    lots = []
    for body in (it for one in bodies for it in one.with_control()):
        fits = lambda lot: all(it.function != body.function or it.text() and body.text() for it in lot)
        lot = next(filter(fits, lots), None)
        if lot:
            lot.append(body)
        else:
            lots.append([body])
    return lots
