"""The items of an .antt file: its tokens, its `use` lines, and its definitions and lemmas with their clauses."""
import re
from dataclasses import dataclass, field
from typing import NamedTuple

TOKEN = re.compile(r'\{-.*?-\}|--[^\n]*|"(?:\\.|[^"\\\n])*"|«[^»]*»|[(){}.;,@]|[^\s(){}.;,@"«»]+', re.S)
MARKS = {"pattern", "unfoldable", "abbrev", "pub", "axiom"}
OPENING, CLOSING = {"(", "{", "["}, {")", "}", "]"}
PUNCTUATION = OPENING | CLOSING | {".", ";", ",", "@"}
KEYWORDS = {
    "→", "×", "=", ":", "|", "↦", "←", "Type", "elim", "as", "record", "where", "data", "unfolding", "deriving", "_", "[", "]",
}
RELATIONS = {"≡", "≢", "<", "≤", ">", "≥", "↔", "⊎", "⊥", "¬", "¬◌", "IsTrue", "◌≡◌", "Contains", "All"}

CONTAINERS = {"List", "Option", "Result", "Vec", "VecDeque", "Map", "("}


class Token(NamedTuple):
    """A word or a sign, with its place, whether it begins its line, and whether no blank stands in front of it."""
    text: str
    line: int
    column: int
    first: bool
    glued: bool


@dataclass(eq=False)
class Item:
    """A definition or a lemma: its signature from its name on, and for each clause its tokens and its local items."""
    name: str
    path: str
    line: int
    marks: set
    form: str
    head: list
    origin: str
    params: list
    block: tuple
    parent: object = None
    clauses: list = field(default_factory=list)
    outer: dict = field(default_factory=dict)
    members: list = field(default_factory=list)
    last_line: int = 0

    def is_definition(self):
        """Whether the whole item is compared, and not its type alone."""
        if self.form != "plain" or self.marks & {"abbrev", "unfoldable"} or (not self.parent and "/specs/" in self.path):
            return True
        return not is_proposition(self)


@dataclass
class File:
    """What a file declares and imports. An import is its name here, the path of its module, its name there, line, `pub`."""
    path: str
    module: str
    items: list = field(default_factory=list)
    imports: list = field(default_factory=list)
    modules: dict = field(default_factory=dict)
    module_lines: dict = field(default_factory=dict)
    loose: list = field(default_factory=list)
    names: dict = field(default_factory=dict)


def tokens_of(text):
    """The tokens of a text, without its comments."""
    result, line, line_start, end, last_line = [], 1, 0, 0, 0
    for match in TOKEN.finditer(text):
        start, word, before = match.start(), match.group(), end
        if start > before and "\n" in text[before:start]:
            line += text.count("\n", before, start)
            line_start = text.rfind("\n", before, start) + 1
        here, column, end = line, start - line_start, match.end()
        if "\n" in word:
            line += word.count("\n")
            line_start = text.rfind("\n", start, end) + 1
        if not word.startswith(("--", "{-")):
            result.append(Token(word, here, column, here != last_line, start == before > 0))
            last_line = line
    return result


def close_of(tokens, start):
    """The index of the bracket that closes the one at `start`."""
    depth = 0
    for i in range(start, len(tokens)):
        if tokens[i].text in OPENING:
            depth += 1
        elif tokens[i].text in CLOSING:
            depth -= 1
            if depth == 0:
                return i
    return len(tokens) - 1


def find_flat(tokens, words, start=0, stop=None):
    """The first index from `start` on of one of the words outside all brackets, or None."""
    depth = 0
    for i in range(start, len(tokens) if stop is None else stop):
        word = tokens[i].text
        if depth == 0 and word in words:
            return i
        depth += (word in OPENING) - (word in CLOSING)
        if depth < 0:
            return None
    return None


def is_projection(tokens, i):
    """Whether the dot at `i` takes a field or a name of a module, and doesn't end the binders of a λ."""
    return tokens[i].text == "." and tokens[i].glued and i + 1 < len(tokens) and tokens[i + 1].glued


def binder_names(tokens, i):
    """The number of names of the binder `(x y : T)` that opens at `i`, or 0 where none does."""
    if i > 0 and tokens[i].text == "{" and tokens[i - 1].text == "record":
        return 0
    k = i + 1
    while k < len(tokens) and tokens[k].text not in PUNCTUATION and tokens[k].text not in {":", "=", "→"}:
        k += 1
    return k - i - 1 if k < len(tokens) and tokens[k].text == ":" else 0


def blocks_of(tokens):
    """The blocks that begin at the column of the first token."""
    blocks = []
    for token in tokens:
        if not blocks or (token.first and token.column <= tokens[0].column and token.text not in CLOSING):
            blocks.append([])
        blocks[-1].append(token)
    return blocks


def is_proposition(item):
    """Whether the type of an item looks like a claim: its result has a relation, or speaks of a bound value."""
    start = find_flat(item.head, {":"})
    result, bound, types = item.head[start + 1:], set(item.outer), set()
    while (arrow := find_flat(result, {"→"})) is not None:
        result = result[arrow + 1:]
    for tokens in [item.head] + item.params:
        for i, token in enumerate(tokens):
            count = binder_names(tokens, i) if token.text in {"(", "{"} else 0
            if count:
                kind = tokens[i + count + 2].text
                (types if kind == "Type" else bound).update(t.text for t in tokens[i + 1:i + count + 1])
    words = {token.text for token in result}
    claims = len(words) > 1 and result[0].text not in CONTAINERS and "×" not in words
    return "Type" not in words and bool(claims or words & RELATIONS or words & (bound - types))


def add_use(file, tokens, public):
    """Read one `use` line."""
    path, i = [], 1
    while i < len(tokens) and tokens[i].text not in {"{", "as"}:
        if tokens[i].text != ".":
            path.append(tokens[i].text)
        i += 1
    if path and path[0] == "package":
        path = path[1:]
    base = ".".join(path)
    if i == len(tokens) or tokens[i].text == "as":
        name = tokens[i + 1].text if i < len(tokens) else path[-1]
        file.modules[name] = base
        file.module_lines[name] = (tokens[0].line, public)
        return
    entry = []
    for token in tokens[i + 1:close_of(tokens, i) + 1]:
        if token.text not in {",", "}"}:
            entry.append(token)
        elif entry:
            words = [t.text for t in entry if t.text != "."]
            local = words[-1]
            words = words[:words.index("as")] if "as" in words else words
            file.imports.append((local, ".".join([base] + words[:-1]), words[-1], entry[0].line, public))
            entry = []


def params_of(tokens):
    """The binders of a module's header, one for each name."""
    result, i = [], 0
    while i < len(tokens):
        if tokens[i].text in {"(", "{"}:
            close, count = close_of(tokens, i), binder_names(tokens, i)
            for k in range(1, count + 1):
                result.append([tokens[i], tokens[i + k]] + tokens[i + count + 1:close + 1])
            i = close
        i += 1
    return result


def members_of(tokens):
    """The fields of a record or the constructors of a data type: the names of each line, and its tokens from the colon on."""
    where = find_flat(tokens, {"where"})
    result = []
    for block in blocks_of(tokens[where + 1:]) if where is not None and where + 1 < len(tokens) else []:
        block = [t for t in block[:2] if t.text != "pub"] + block[2:]
        colon = find_flat(block, {":"}) or 0
        result.append(([t.text for t in block[:colon]], block[colon:]))
    return result


def is_signature(tokens):
    """Whether a block is `name : type`, perhaps with levels in braces behind the name."""
    i = 1
    if i < len(tokens) and tokens[i].text == "{" and not binder_names(tokens, i):
        i = close_of(tokens, i) + 1
    return i < len(tokens) and tokens[i].text == ":"


def new_item(file, block, marks, form, place):
    """The item that a block begins; `place` is its module's parameters, its module's key and its parent."""
    params, key, parent = place
    name = block[1 if form != "plain" else 0].text
    origin = f"{file.module}.{name}" if parent is None else f"{parent.origin}/{block[0].line}/{name}"
    item = Item(name, file.path, block[0].line, marks, form, block, origin, params, key, parent)
    if form != "plain":
        item.members = members_of(block)
        item.head = block[:find_flat(block, {"where"})]
    item.last_line = block[-1].line
    return item


def add_clause(file, item, block):
    """Add a clause with the local items behind its `where`."""
    where = find_flat(block, {"where"})
    body, rest = (block, []) if where is None else (block[:where], block[where + 1:])
    local = items_of(file, rest, (item.params, item.block, item)) if rest else []
    item.clauses.append((body, local))
    item.last_line = block[-1].line


def items_of(file, tokens, place):
    """The items of a text, those in its sections `module _` too."""
    items, (params, key, parent) = [], place
    for block in blocks_of(tokens):
        count = next((i for i, t in enumerate(block) if t.text not in MARKS or [t.text for t in block[i + 1:i + 2]] == [":"]), 0)
        marks, block = {t.text for t in block[:count]}, block[count:]
        word = block[0].text
        if word == "use":
            add_use(file, block, "pub" in marks)
        elif word in {"module", "mutual"}:
            where = find_flat(block, {"where"}) if word == "module" else 0
            inner = params + params_of(block[2:where] if where else [])
            items += items_of(file, block[where + 1:], (inner, key + (block[0].line,) if where else key, parent))
        elif word in {"open", "ruleset"}:
            file.loose.append(block)
        elif word in {"record", "data"}:
            items.append(new_item(file, block, marks, word, place))
        elif is_signature(block):
            items.append(new_item(file, block, marks, "plain", place))
        elif items and word not in {"mod", "infix", "infixl", "infixr"}:
            add_clause(file, items[-1], block)
    return items


def file_of(path, text):
    """Read one file; its path is below the repository, `crates/<crate>/<specs or proofs>/...`."""
    parts = path[:-len(".antt")].split("/")[1:]
    if parts[-1] == "Lib":
        parts.pop()
    file = File(path, ".".join(["Rattle"] + parts))
    file.items = items_of(file, tokens_of(text), ([], (), None))
    file.names = {item.name: item for item in file.items}
    return file
