"""The normal form of an item without its types: what is the same but for the types that it is about."""
import collections

from .antt_forms import SELF
from .antt_items import KEYWORDS, PUNCTUATION

TYPE = "<type>"
OF_STD = {"std " + name for name in ("List", "Option", "Result", "Bool", "ℕ", "ℤ")}


def is_type(item):
    """Whether an item is a type, and no function, claim or lemma: its kind stands behind its name."""
    words = [token.text for token in item.head]
    kind = words[words.index(":") + 1:] if ":" in words else []
    return kind[:1] == ["Type"] and (item.form == "plain" and len(words) == 4 or item.form != "plain" and words[2:3] == [":"])


def is_name_of_type(word, by_origin):
    """Whether a word of a normal form names a type of the repository, of an .rt file or of std."""
    if isinstance(word, str) or word[2:] and word[2]:
        return False
    parts = word[1].split(".")
    declared = len(parts) > 1 and "declared" in parts and parts[-1] == parts[-2]
    return word[1] in OF_STD or declared or (word[1] in by_origin and is_type(by_origin[word[1]]))


def looks_inside(form):
    """Whether a form takes a field by its name, so that it is about one record."""
    return any(isinstance(word, str) and word[:1] == "." and word[1:2].isalpha() for word in form)


def parameters_of(words):
    """The type parameters that a form binds, and the form without their binders."""
    found, result, i = set(), [], 0
    while i < len(words):
        if words[i] == "(" and words[i + 2:i + 4] == [":", "Type"]:
            found.add(words[i + 1])
            i = words.index(")", i) + 1
        elif words[i] == "{" and result[-1:] == [SELF] and words[i + 2:i + 3] == ["}"]:
            found.add(words[i + 1])
            i += 3
        else:
            result.append(words[i])
            i += 1
    return found, result


def without_types(form, by_origin):
    """A normal form in which each type is one word, whatever it is made of."""
    found, words = parameters_of([TYPE if is_name_of_type(word, by_origin) else word for word in form])
    result, numbers = [], {}
    for word in words:
        result.append(TYPE if word in found else word)
        while shorter := joined(result):
            result = shorter
    for i, word in enumerate(result):
        if isinstance(word, str) and word[:1] == "#":
            result[i] = numbers.setdefault(word, f"#{len(numbers) + 1}")
    return tuple(result)


def joined(words):
    """The words with the type at their end made shorter, or nothing."""
    if words[-3:] in (["(", TYPE, ")"], [TYPE, "×", TYPE]):
        return words[:-3] + [TYPE]
    return words[:-2] + [TYPE] if words[-2:] == [TYPE, TYPE] else None


def same_but_for_types(forms, by_origin):
    """The forms without types of more than one item, with these: of items that are no types, and that take no field by its name."""
    groups = collections.defaultdict(list)
    for item, form in forms:
        if not looks_inside(form) and not is_type(item):
            groups[without_types(form, by_origin)].append(item)
    return [(form, group) for form, group in groups.items() if len(group) > 1]


def size_of(form):
    """How many words of a normal form mean something, types that are put aside left out."""
    return sum(not isinstance(word, str) or word not in PUNCTUATION | KEYWORDS | {TYPE} for word in form)
