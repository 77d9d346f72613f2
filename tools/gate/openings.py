"""Openings of sentences that pages don't have: there the subject comes first, and a condition begins with 'if'. And openings of comments that can't
be read alone, since they lean on the line above."""
import re
from collections import namedtuple

from archive.links import without_blocks

# How sentences begin that are refused, such a sentence, and how it is said instead.
Opening = namedtuple("Opening", "begins refused right")
REFUSED = [
    Opening(r"Where [a-z`]", "Where a rank stops, its step ends.", "If a rank stops, its step ends."),
    Opening(r"What ", "What is sent comes once.", "A message comes once."),
    Opening(r"Who(ever)? ", "Who adopts is in the new group.", "A rank that adopts is in the new group."),
    Opening(r"Which ", "Which rank dies is said by the place.", "The place says which rank dies."),
    Opening(r"That (a|an|it|no|somebody|the|there|these|they|two) ", "That no rank hangs is proved.", "It is proved that no rank hangs."),
    Opening(r"Of ", "Of `run` it is proved that it agrees.", "For `run` it is proved that it agrees."),
    Opening(r"By `", "By `--stop` a rank ends.", "With `--stop` a rank ends."),
    Opening(r"Behind ", "Behind a step stands its answer.", "A step is followed by its answer."),
    Opening(r"Else ", "Else it is refused.", "Otherwise it is refused."),
    Opening(r"Dear ", "Dear is a large value.", "A large value is slow to prove."),
    Opening(r"Mostly ", "Mostly a second or two.", "It mostly takes a second or two."),
    Opening(r"So (is|are) (written|printed|told) ", "So are written three jobs.", "Three jobs are written so."),
    Opening(r"The same (as|by|for|if|of|where|with) ", "The same of a list.", "It says what it does for a list."),
]
# Pages that are records.
LEFT_OUT = {"MEASURED.md", "CHANGELOG.md"}
HEAD_OF_TABLE = re.compile(r"^\|.*\n(?=\|[-|]+\n)", re.MULTILINE)
LINE_AS_IT_IS = re.compile(r"^(    |#).*$", re.MULTILINE)
PARTS = re.compile(r"\n\s*\n|\n(?= *(?:[-*]|\d+\.) )|\|")
BULLET = re.compile(r"^([-*]|\d+\.)\s+")
# A comment of C, or of a function in Python, and one that is refused.
LEANING = re.compile(r"(?:/\* |\"\"\")(The same\b.*)")
# A comment of Rattle, or of a definition or a lemma, whose comments may begin with a small letter. A copy may be the same value once more.
LEANING_IN_RATTLE = re.compile(r"^ *(?://[/!] (?=T)|-- )([Tt]he same(?:,|$| (?:as|at|behind|by|for|if|in|of|on|to|where|with)\b).*)", re.MULTILINE)
LEANS = "The same of texts."
COPIES = "The same job once more."
END = re.compile(r"(?<=[.:;?!])\s+(?=[A-Z`])")


def sentences(page):
    """The sentences of a page, without what it shows, its headings and the heads of its tables."""
    text = LINE_AS_IT_IS.sub("", HEAD_OF_TABLE.sub("", without_blocks(page)))
    for part in PARTS.split(text):
        words = " ".join(BULLET.sub("", part.strip()).replace("**", "").split())
        yield from END.split(words)


def refused(page):
    """The sentences of a page that begin as they shouldn't. A question may."""
    for sentence in sentences(page):
        if not sentence.endswith("?") and any(re.match(it.begins, sentence) for it in REFUSED):
            yield sentence


def leaning(code):
    """The comments of a file of C or Python that can't be read alone."""
    return LEANING.findall(code)


def leaning_in_rattle(code):
    """The comments of a file of Rattle or Rust, of definitions or of proofs that can't be read alone."""
    return LEANING_IN_RATTLE.findall(code)
