"""The links of pages."""
import re


def without_blocks(text):
    """A page without what it shows between fences."""
    return re.sub(r"^```.*?^```$", "", text, flags=re.DOTALL | re.MULTILINE)


def relative_links(text):
    """The links of a page that lead to a file of the repository, or to a heading, each once."""
    found = re.findall(r"\]\(([^()\s]+)\)", without_blocks(text))
    return sorted({link for link in found if not re.match(r"[a-z]+:", link)})
