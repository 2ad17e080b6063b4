"""Writes JSON texts: documents with edits of their arrays (edits), or with a JSON Patch, RFC 6902 (patch), or values with a bracket too many or too few (brackets) or that
are cut short (cut).

    python3 json_texts.py COUNT FOLDER SEED edits|patch|brackets|cut
"""
import json
import random
import sys
from pathlib import Path
from typing import Any, Callable, Dict, List

WORDS = ("a", "b", "name", "list", "x/y", "t~u", "", "0", "12", "value")
JUNK = ":;<=>?Aaz"


class Writer:
    """Makes texts by chance."""

    def __init__(self, chance: random.Random) -> None:
        self.chance = chance

    def number(self) -> str:
        """A number: most are short, and each digit more is as likely as none."""
        length = 1 + int(self.chance.expovariate(1 / 6))
        digits = "".join(self.chance.choice("0123456789") for _ in range(length)).lstrip("0") or "0"
        point = "." + str(self.chance.randrange(1, 1000)) if self.chance.random() < 0.2 else ""
        power = self.chance.choice(("e5", "E-3", "e+2")) if self.chance.random() < 0.1 else ""
        return self.chance.choice(("", "", "-")) + digits + point + power

    def value(self, depth: int = 0) -> str:
        pick = self.chance.randrange(9)
        if pick < 3 or depth > 3:
            return self.number()
        if pick == 3:
            return self.chance.choice(("true", "false", "null"))
        if pick < 6:
            return json.dumps("".join(self.chance.choice("ab \"\\/\n\u00e9\u20ac") for _ in range(self.chance.randrange(6))))
        if pick == 6:
            return self.array(depth, self.chance.randrange(5))
        return self.object(depth)

    def array(self, depth: int, length: int) -> str:
        return "[" + ", ".join(self.value(depth + 1) for _ in range(length)) + "]"

    def object(self, depth: int) -> str:
        names = self.chance.sample(WORDS, self.chance.randrange(4))
        return "{" + ", ".join(f"{json.dumps(name)}: {self.value(depth + 1)}" for name in names) + "}"

    def edits(self) -> str:
        """A document whose array is edited at some places, most of which are there."""
        length, rows = self.chance.randrange(8), []
        for _ in range(self.chance.randrange(5)):
            op, at = self.chance.choice(("insert", "replace", "remove", "remove")), self.chance.randrange(length + 2)
            rows.append(f'{{"op": "{op}", "at": {at}, "value": {self.value(2)}}}')
        return f'{{"doc": {self.array(0, length)}, "edits": [{", ".join(rows)}]}}'

    def pointer(self, document: Any) -> str:
        """A JSON Pointer (RFC 6901) into a document; a few have a step that leads nowhere, or an index with something behind its digits."""
        steps: List[str] = []
        while isinstance(document, (dict, list)) and document and self.chance.random() < 0.8:
            if isinstance(document, dict):
                name = self.chance.choice(sorted(document))
                steps.append(name.replace("~", "~0").replace("/", "~1"))
                document = document[name]
            else:
                at = self.chance.randrange(len(document))
                wrong = self.chance.random()
                steps.append("-" if wrong < 0.03 else str(at) + self.chance.choice(JUNK) if wrong < 0.12 else str(at))
                document = document[at]
        if self.chance.random() < 0.1:
            steps.append(self.chance.choice(("1", "new", "-", "01")))
        return "".join("/" + step for step in steps)

    def patch(self) -> str:
        document = self.array(0, int(self.chance.expovariate(1 / 14))) if self.chance.random() < 0.5 else self.object(0)
        read: Any = json.loads(document)
        rows = []
        for _ in range(self.chance.randrange(1, 4)):
            op, path = self.chance.choice(("add", "replace", "remove", "test", "copy", "move")), json.dumps(self.pointer(read))
            rows.append(f'{{"op": "{op}", "path": {path}, "from": {json.dumps(self.pointer(read))}, "value": {self.value(2)}}}')
        return f'{{"doc": {document}, "patch": [{", ".join(rows)}]}}'

    def brackets(self) -> str:
        """A value; some have a bracket more, less, or another one in its place."""
        text = self.value()
        places = [place for place, sign in enumerate(text) if sign in "[]{}"]
        if not places or self.chance.random() < 0.7:
            return text + self.chance.choice(("",) * 18 + ("]", "}"))
        at = self.chance.choice(places)
        return text[:at] + self.chance.choice(("", "]", "}", "[", text[at] * 2)) + text[at + 1:]

    def cut(self) -> str:
        """An object, half of them up to some place."""
        text = self.object(0)
        return text[:self.chance.randrange(1, len(text) + 1)] if self.chance.random() < 0.5 else text


def main(words: List[str]) -> int:
    count, folder, seed, what = words
    writer = Writer(random.Random(int(seed)))
    made: Dict[str, Callable[[], str]] = {"edits": writer.edits, "patch": writer.patch, "brackets": writer.brackets, "cut": writer.cut}
    for place in range(int(count)):
        (Path(folder) / f"t{place:05}").write_text(made[what](), encoding="utf-8")
    return 0


if __name__ == "__main__":
    sys.exit(main(sys.argv[1:]))
