"""Statements of lemmas up to the names of what they bind, for checks/house: which lemmas say the same.

A statement is the type of a lemma with what the module around it takes, as far as the type names it. Names that it binds are numbered in their order, an imported
name stands with the crate that it comes from, and one of the file itself with the file. So two lemmas say the same where these are equal.
"""
import re
from typing import Dict, Iterator, List, NamedTuple, Optional, Set, Tuple

HEAD = re.compile(r"^(\s*)(?:(?:pub|abbrev|unfoldable|opaque)\s+)*([^\s:(){}.,=]+) :(?=\s|$)")
TOKEN = re.compile(r"[(){}\[\],;]|[^\s(){}\[\],;]+")
NAMES = re.compile(r"^\s*(?:unfoldable )?(?:pub )?use Rattle\.(\w+)\.\S+?\.\{(.*)\}$")
MODULE = re.compile(r"^\s*(?:unfoldable )?(?:pub )?use Rattle\.(\w+)\.(\S+?)(?: as (\S+))?$")
RELATION = re.compile(r"≡|≢|≤|<|⊎|↔|¬|\b(?:Is|Are|Has|All|Have)(?:[A-Z]|\b)|\b(?:Keeps|Gives|IfOk|IfSome)\b")
OPEN, CLOSE = "({[", ")}]"

# a name that is bound, and its type
Bound = Tuple[str, List[str]]


class Lemma(NamedTuple):
    """A lemma of a file: its name, and what it says."""
    name: str
    statement: str


def close_of(words: List[str], at: int) -> int:
    """Where the bracket closes that opens at this place, or the end."""
    depth = 0
    for place in range(at, len(words)):
        depth += int(words[place] in OPEN) - int(words[place] in CLOSE)
        if not depth:
            return place
    return len(words)


def bound_at(words: List[str], at: int) -> Optional[Tuple[List[str], int]]:
    """The names of a group `(a b : ..)` that opens here, and where its type begins."""
    place = at + 1
    while place < len(words) and words[place] not in OPEN + CLOSE + ",;:":
        place += 1
    return (words[at + 1:place], place + 1) if words[at] in "({" and place < len(words) and words[place] == ":" and place > at + 1 else None


def one_by_one(words: List[str]) -> Tuple[List[str], Set[str]]:
    """Each bound name in a group of its own, `(a b : T)` as `(a : T) (b : T)`, without the arrows between groups; and the names that are bound."""
    found: List[str] = []
    names: Set[str] = set()
    place = 0
    while place < len(words):
        word, group = words[place], bound_at(words, place)
        if group:
            end = close_of(words, place)
            inner, more = one_by_one(words[group[1]:end])
            names.update(group[0], more)
            for name in group[0]:
                found += ["(", name, ":", *inner, ")"]
            place = end + 1
            continue
        if word.startswith("λ"):
            at = place if word != "λ" else place + 1
            while at < len(words) and words[at] not in OPEN + CLOSE:
                names.add(words[at].lstrip("λ").rstrip("."))
                if words[at].endswith("."):
                    break
                at += 1
        if word != "→" or not found or found[-1] != ")":
            found.append(word)
        place += 1
    return found, names


def groups_of(words: List[str]) -> List[Bound]:
    """What the head of a module takes."""
    found: List[Bound] = []
    place = 0
    while place < len(words):
        group = bound_at(words, place)
        end = close_of(words, place) if group else place
        if group:
            found += [(name, words[group[1]:end]) for name in group[0]]
        place = end + 1
    return found


def taken(groups: List[Bound], words: List[str]) -> List[str]:
    """What the modules around a type take, as far as it names it."""
    needed = {word.split(".")[0] for word in words}
    found: List[str] = []
    for name, of in reversed(groups):
        if name in needed:
            needed.update(word.split(".")[0] for word in of)
            found = ["(", name, ":", *of, ")", *found]
    return found


class Page:
    """A file of lemmas, with what its names stand for."""

    def __init__(self, crate: str, file: str, text: str) -> None:
        self.rows = text.splitlines()
        self.origin: Dict[str, str] = {}
        for row in self.rows:
            names, module = NAMES.match(row), MODULE.match(row)
            if names:
                for each in names[2].split(","):
                    old, _, new = each.strip().partition(" as ")
                    self.origin[(new or old).strip()] = f"{names[1]}.{old.strip()}"
            elif module:
                self.origin[module[3] or module[2].split(".")[-1]] = module[1]
        for row in self.rows:
            head = HEAD.match(row)
            if head and head[2] not in self.origin:
                self.origin[head[2]] = f"{crate}/{file}.{head[2]}"

    def said(self, words: List[str]) -> str:
        """A type in which nothing depends on how its names are chosen."""
        split, bound = one_by_one(words)
        numbers: Dict[str, str] = {}
        found = []
        for word in split:
            lead, name = ("λ", word[1:]) if word.startswith("λ") else ("", word)
            first, dot, rest = name.partition(".")
            if first in bound:
                found.append(lead + numbers.setdefault(first, f"v{len(numbers)}") + dot + rest)
            else:
                found.append(lead + self.origin.get(first, first) + dot + rest)
        return " ".join("(" if it == "{" else ")" if it == "}" else it for it in found)

    def lemmas(self) -> Iterator[Lemma]:
        """The lemmas of the file, but for what one of them says within its own proof."""
        modules: List[Tuple[int, List[Bound]]] = []
        inside: Optional[int] = None
        at = 0
        while at < len(self.rows):
            row = self.rows[at]
            margin = len(row) - len(row.lstrip())
            end = at + 1
            if row.strip():
                modules = [it for it in modules if it[0] < margin]
                inside = None if inside is not None and margin <= inside else inside
            head = HEAD.match(row)
            if re.match(r"\s*(?:pub )?(?:module|mutual)\b", row):
                while not self.rows[end - 1].rstrip().endswith(("where", "mutual")):
                    end += 1
                modules.append((margin, groups_of(TOKEN.findall(" ".join(self.rows[at:end])))))
            elif re.match(r"\s*(?:pub )?(?:record|data)\s", row):
                inside = margin
            elif head and inside is None and margin == (modules[-1][0] + 2 if modules else 0) and not row.lstrip().startswith(("--", "use ", "pub use ")):
                while end < len(self.rows) and self.rows[end].strip() and len(self.rows[end]) - len(self.rows[end].lstrip()) > margin:
                    end += 1
                words = TOKEN.findall(" ".join([row[head.end():], *self.rows[at + 1:end]]))
                yield Lemma(head[2], self.said(taken([it for _, groups in modules for it in groups], words) + words))
            at = end


def is_statement(said: str) -> bool:
    """Whether a type says something: it has a relation, and is none itself."""
    return bool(RELATION.search(said)) and not said.endswith("Type 0")
