"""Pages whose tables are made: between `<!-- made: NAME -->` and `<!-- end -->` stands what a script writes there, and everything else is its author's."""
import re
from typing import Dict, Match

MADE = re.compile(r"<!-- made: (.*?) -->\n(.*?)<!-- end -->", re.DOTALL)


def filled(text: str, made: Dict[str, str]) -> str:
    """A page with what is made; a part that isn't made stays as it is."""
    def fill(found: Match[str]) -> str:
        return f"<!-- made: {found[1]} -->\n{made.get(found[1], found[2].strip())}\n<!-- end -->"
    return MADE.sub(fill, text)


def fill_in(path: str, made: Dict[str, str]) -> str:
    """Writes what is made into the page of a file; the page as it was."""
    with open(path, encoding="utf-8") as file:
        text = file.read()
    with open(path, "w", encoding="utf-8") as file:
        file.write(filled(text, made))
    return text
