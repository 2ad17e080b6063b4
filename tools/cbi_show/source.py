"""The C text behind a site: its condition, its call or its assignment, as they stand there. Not proved.

A site knows its token by its place among the tokens (docs/reference/LANGUAGE.md has them). Where the text that is given
isn't the one that was compiled, the tokens don't fit, and nothing is said of it.
"""
import re
from typing import TYPE_CHECKING, Callable, Dict, Iterator, List, NamedTuple, Optional, Sequence, Tuple

from cbi_show.files import Site, printable_character

if TYPE_CHECKING:
    from cbi_port import Note

PIECE = re.compile(r"""(?P<blank>[\t-\r ]+ | /\*.*?\*/ | //[^\n]*) | (?P<directive>\#[^\n]*) |
    (?P<token>[^\W\d]\w* | \d\w* | '(?:\\.|[^'\\\n])*' | "(?:\\.|[^"\\\n])*" | ->|\+\+|--|<<=|>>=|<<|>>|<=|>=|==|!=|&&|\|\||[-+*/%&^|]=|.)""",
                   re.DOTALL | re.VERBOSE)
OPENING, CLOSING = "([{", ")]}"
ASSIGNMENTS = {"=", "*=", "/=", "%=", "+=", "-=", "<<=", ">>=", "&=", "^=", "|="}
# Where an operand that is read backwards begins at the latest.
BEFORE_OPERAND = {",", ";", "?", ":", "return", "else", "do"} | ASSIGNMENTS
HEADS = {"if", "while", "for", "switch"}
MOST_TEXT = 60
# How the names begin of functions that go through all those that a pointer may stand for.
CALL = "cbi_call_"
BYTES_READ = ("getchar", "getc", "fgetc")   # they return a byte or EOF
# What stands before the statement of a fact of a variable, or of what the porter has seen in its place.
AFTER, READ_IN = WHEN = ("after ", "when read in ")
# An expression that may be called as it stands.
POSTFIX = r"[\w.\[\]]+(->[\w.\[\]]+)*"


class Token(NamedTuple):
    text: str
    line: int
    start: int
    end: int


class Fact(NamedTuple):
    """A predicate in words: `code` is from the text, and `says` what is true of it."""
    code: str
    says: str

    def text(self) -> str:
        return " ".join(part for part in (self.code, self.says) if part)

    def when(self) -> str:
        """What stands before the statement behind which a variable has its value; nothing in other facts."""
        return next((when for when in WHEN if self.says.startswith(when)), "")

    def past(self) -> str:
        return Fact(self.code, re.sub(r"(^|\) )is ", r"\1was ", self.says)).text()


def clipped(text: str, most: int = MOST_TEXT) -> str:
    return text if len(text) <= most else text[:most - 2] + ".."


def may_be(word: str, ours: str) -> bool:
    """Whether a word may be what a macro becomes that the author wrote: a constant in place of a name."""
    return word == ours or re.match(r"[\d'\"]", word) is not None and re.match("[A-Za-z_]", ours) is not None


class Source:
    """A C text as its tokens."""

    def __init__(self, lines: List[str]):
        self.text = "\n".join(lines)
        self.tokens: List[Token] = []
        line = 1
        for piece in PIECE.finditer(self.text):
            if piece["token"]:
                self.tokens.append(Token(piece["token"], line, piece.start(), piece.end()))
            line += piece[0].count("\n")
        self.partner = self.brackets()
        self.by_line: Dict[int, List[int]] = {}
        for place, token in enumerate(self.tokens):
            self.by_line.setdefault(token.line, []).append(place)

    def brackets(self) -> Dict[int, int]:
        """The other bracket of each one, both ways."""
        found: Dict[int, int] = {}
        opened: List[int] = []
        for place, token in enumerate(self.tokens):
            if token.text in OPENING:
                opened.append(place)
            elif token.text in CLOSING and opened:
                found[place] = opened.pop()
                found[found[place]] = place
        return found

    def word(self, place: int) -> str:
        return self.tokens[place].text if 0 <= place < len(self.tokens) else ""

    def between(self, first: int, last: int) -> str:
        """The text from one token to another, on one line and without comments."""
        if not 0 <= first <= last < len(self.tokens):
            return ""
        piece = self.text[self.tokens[first].start:self.tokens[last].end]
        kept = (found[0] if found["token"] else "" if found["directive"] else " " for found in PIECE.finditer(piece))
        return re.sub(r"\s+", " ", "".join(kept)).strip()

    def place_of(self, site: Site) -> Optional[int]:
        """The place of a site's token; none where this isn't the text."""
        word = self.word(site.token)
        if not word or self.tokens[site.token].line != site.line:
            return None
        if site.scheme == "pairs":
            fits = word in ASSIGNMENTS or word in ("++", "--")
        else:
            fits = word == {"?:": "?"}.get(site.names[0], site.names[0])
        return site.token if fits else None

    # Pieces of the text

    def inside(self, place: int) -> str:
        """What stands in the brackets at a place."""
        return self.between(place + 1, self.partner.get(place, 0) - 1)

    def head(self, place: int) -> str:
        """A condition with its word: `while (low < high)`, and of a `for` the middle part alone."""
        word = self.word(place)
        if word == "do":
            after = self.end_of_statement(place + 1)
            return f"do .. while ({self.inside(after + 1)})"
        if word != "for":
            return f"{word} ({self.inside(place + 1)})"
        close, parts = self.partner.get(place + 1, 0), [place + 1]
        at = place + 2
        while at < close:
            if self.word(at) == ";":
                parts.append(at)
            at = self.partner[at] + 1 if self.word(at) in OPENING and at in self.partner else at + 1
        return f"for ({self.between(parts[1] + 1, parts[2] - 1)})" if len(parts) == 3 else ""

    def end_of_statement(self, place: int) -> int:
        """The place behind a statement."""
        word = self.word(place)
        if word == "{":
            return self.partner.get(place, len(self.tokens)) + 1
        if word in HEADS:
            after = self.end_of_statement(self.partner.get(place + 1, len(self.tokens)) + 1)
            return self.end_of_statement(after + 1) if word == "if" and self.word(after) == "else" else after
        if word == "do":
            after = self.end_of_statement(place + 1)
            return self.partner.get(after + 1, len(self.tokens)) + 2
        while place < len(self.tokens) and self.word(place) != ";":
            place = self.partner[place] + 1 if self.word(place) in OPENING and place in self.partner else place + 1
        return place + 1

    def called_by_pointer(self, place: int) -> str:
        """The call of a function of the port that stands for one by a pointer, as it was: `cbi_call_1(table[k], a)` is `table[k](a)`."""
        close = self.partner.get(place + 1, place)
        comma = place + 2
        while comma < close and self.word(comma) != ",":
            comma = self.partner[comma] + 1 if self.word(comma) in OPENING and comma in self.partner else comma + 1
        function = self.between(place + 2, comma - 1)
        return f"{function if re.fullmatch(POSTFIX, function) else f'({function})'}({self.between(comma + 1, close - 1)})"

    def callee_of(self, place: int) -> str:
        """The function that a branch of such a function calls: `if (..) return f(..);` or `if (..) { f(..); return; }`."""
        at = self.partner.get(place + 1, place) + 1
        return self.word(at + 1) if self.word(at) in ("return", "{") else ""

    def calls_of(self, name: str) -> List[int]:
        """The lines on which a function is called: within braces, where no function is declared."""
        found, depth = [], 0
        for place, token in enumerate(self.tokens):
            depth += (token.text == "{") - (token.text == "}")
            if depth and token.text == name and self.word(place + 1) == "(":
                found.append(token.line)
        return found

    def left_of(self, place: int) -> str:
        """The operand that stands left of `&&`, `||` or `?`."""
        ends = BEFORE_OPERAND | ({"||"} if self.word(place) == "&&" else set())
        at = place - 1
        while at >= 0:
            word = self.word(at)
            if word in ends or word in "([{}" or word in HEADS:
                break
            if word in ")]":
                opening = self.partner.get(at, -1)
                if opening < 0 or self.word(opening - 1) in HEADS:
                    break
                at = opening
            at -= 1
        return self.between(at + 1, place - 1)

    def assignment(self, place: int) -> str:
        """The assignment at an operator: `c = getchar()`, `i++`, `--n`."""
        if self.word(place) in ("++", "--"):
            after = re.match(r"[A-Za-z_]", self.word(place + 1)) and not re.match(r"[A-Za-z_]", self.word(place - 1))
            return self.between(place, place + 1) if after else self.between(place - 1, place)
        return self.between(place - 1, self.end_of_assignment(place))

    def end_of_assignment(self, place: int) -> int:
        """The last place of the assignment that has an operator."""
        at, asked = place + 1, 0
        while at < len(self.tokens):
            word = self.word(at)
            asked += (word == "?") - (word == ":")
            if word in (",", ";") or word in CLOSING or asked < 0:
                break
            at = self.partner[at] + 1 if word in OPENING and at in self.partner else at + 1
        return at - 1

    def gives_pointer(self, name: str) -> bool:
        """Whether a function of the text, or of the library, gives a pointer."""
        return name == "malloc" or self.word(self.declared_at(name) - 1) == "*"

    def gives_object(self, name: str) -> bool:
        """Whether a function of a ported text gives a number of 64 bits, by where it lies."""
        at = self.declared_at(name)
        return [self.word(at - 2), self.word(at - 1)] == ["cbi_long", "*"]

    def declared_at(self, name: str) -> int:
        """The place of a function's name outside functions; before the text where it isn't there."""
        depth = 0
        for place, token in enumerate(self.tokens):
            depth += (token.text == "{") - (token.text == "}")
            if depth == 0 and token.text == name and self.word(place + 1) == "(":
                return place
        return -2

    # Facts

    def fact(self, site: Site, text: str) -> Fact:
        """A predicate of a site in words; `text` is how a ranking has it."""
        place = self.place_of(site)
        return plain_fact(site.scheme, text) if place is None else self.fact_at(place, site, text, self)

    def words_on(self, line: int, word: str) -> List[int]:
        """The places of a word on a line."""
        return [place for place in self.by_line.get(line, []) if self.word(place) == word]

    def words_from(self, first: int, last: int) -> List[int]:
        """The places of all words on some lines but parentheses."""
        return [place for line in range(first, last + 1) for place in self.by_line.get(line, []) if self.word(place) not in "()"]

    def labels_on(self, line: int) -> Optional[str]:
        """The labels of a `switch` that begin on a line, with those right behind them, where nothing else has one on it."""
        found = [place for word in ("case", "default") for place in self.words_on(line, word)]
        at = min(found, default=0)
        end = -1
        while found and self.word(at) in ("case", "default"):
            end = next((place for place in range(at, len(self.tokens)) if self.word(place) == ":"), -1)
            at = end + 1
        return self.between(min(found), end - 1) if found and max(found) < end else None

    def places_at(self, notes: "Sequence[Note]") -> List[Optional[int]]:
        """The token at the line and column of each note; a column counts what is ASCII."""
        starts, at = [0], -1
        while (at := self.text.find("\n", at + 1)) >= 0:
            starts.append(at + 1)
        lines = {note.line for note in notes}
        known = {}
        for place, token in enumerate(self.tokens):
            if token.line in lines:
                before = self.text[starts[token.line - 1]:token.start]
                known[token.line, len(before) if before.isascii() else sum(letter.isascii() for letter in before)] = place
        return [known.get((note.line, note.column)) for note in notes]

    def found(self, text: str, first: int, last: int, macros: bool = True) -> Optional[str]:
        """An expression as it stands on these lines, whatever parentheses it has there; else, where it may have `macros`, the one there that has names in place of constants."""
        words = [piece[0] for piece in PIECE.finditer(text) if piece["token"] and piece["token"] not in "()"]
        ours = self.words_from(first, last)
        for same in (str.__eq__, *[may_be] * macros):
            found = [self.whole(*ends) for ends in self.ends_of(words, ours, same)]
            if found and (same is str.__eq__ or len(set(found)) == 1):
                return found[0]
        return None

    def ends_of(self, words: List[str], ours: List[int], same: Callable[[str, str], bool]) -> Iterator[Tuple[int, int]]:
        """The first and the last place of each row of these words among some places."""
        for start in range(len(ours) - len(words) + 1 if words else 0):
            if all(same(word, self.word(place)) for place, word in zip(ours[start:start + len(words)], words)):
                yield ours[start], ours[start + len(words) - 1]

    def found_assignment(self, text: str, first: int, last: int) -> Optional[str]:
        """The one assignment on these lines to what this one assigns to."""
        words = [piece[0] for piece in PIECE.finditer(text) if piece["token"] and piece["token"] not in "()"]
        sign = next((at for at, word in enumerate(words) if word in ASSIGNMENTS), None)
        if sign is None:
            return None
        ours = self.words_from(first, last)
        ends = list(self.ends_of(words[:sign + 1], ours, str.__eq__))
        return self.whole(ends[0][0], self.end_of_assignment(ends[0][1])) if len(ends) == 1 else None

    def stored(self, place: str, first: int, last: int) -> str:
        """The one assignment, `++` or `--` of a place that begins on the first of these lines, or else on any; nothing where there is none, or more than one."""
        for end in (first, last):
            found = [code for sign in sorted(ASSIGNMENTS) for code in [self.found_assignment(f"{place} {sign}", first, end)] if code]
            found += [code for step in (f"{place}++", f"{place}--", f"++{place}", f"--{place}") for code in [self.found(step, first, end, False)] if code]
            if found:
                return found[0] if len(found) == 1 else ""
        return ""

    def whole(self, first: int, last: int) -> str:
        """The text from one token to another, with the parentheses that are open there."""
        depth = least = 0
        for place in range(first, last + 1):
            depth += (self.word(place) == "(") - (self.word(place) == ")")
            least = min(least, depth)
        for _ in range(-least):
            first -= self.word(first - 1) == "("
        for _ in range(depth - least):
            last += self.word(last + 1) == ")"
        return self.between(first, last)

    def call_at(self, place: int) -> str:
        return self.between(place, self.partner.get(place + 1, place))

    def fact_at(self, place: int, site: Site, text: str, compiled: "Source") -> Fact:
        """A predicate in words, of the site that stands at a place; what a function gives is seen in the text that was compiled."""
        if site.scheme == "branches":
            return self.branch(place, site.names[0], text.split(" ")[-1])
        if site.scheme == "returns":
            call = self.called_by_pointer(place) if self.word(place).startswith(CALL) else self.call_at(place)
            return Fact(clipped(call), returned(text.split(" ")[-2], compiled.gives_pointer(site.names[0]), site.names[0]))
        return Fact(with_character("pairs", text), f"after {clipped(self.assignment(place))}")

    def branch(self, place: int, word: str, truth: str) -> Fact:
        if word in ("&&", "||", "?:"):
            side = "before ?" if word == "?:" else f"left of {word}"
            return Fact(clipped(self.left_of(place)), f"({side}) is {truth}")
        return Fact(clipped(self.head(place) or word), f"is {truth}")


def plain_fact(scheme: str, text: str) -> Fact:
    """A predicate as a ranking has it, where there is no text to look at."""
    if scheme == "branches":
        word, truth = text.split(" is ", 1) if " is " in text else (text, "")
        left = word in ("&&", "||")
        return Fact(f"what is left of {word}" if left else word, f"is {truth}" if truth else "")
    return Fact(with_character(scheme, text), "")


def with_character(scheme: str, text: str) -> str:
    """The text of a pair, with the character behind a printable constant: `c == 63 '?'`."""
    words = text.split(" ")
    if scheme == "pairs" and len(words) == 3 and words[2].isdigit() and 32 <= int(words[2]) <= 126:
        return f"{text} {printable_character(int(words[2]))}"
    return text


NUMBERS = {"<": "less than 0", "<=": "0 or less", ">": "more than 0", ">=": "0 or more", "==": "0", "!=": "other than 0"}
POINTERS = {"<": "less than NULL", "<=": "NULL", ">": "a pointer, not NULL", ">=": "NULL or a pointer", "==": "NULL", "!=": "a pointer, not NULL"}


def returned(relation: str, pointer: bool, name: str) -> str:
    if name in BYTES_READ and relation in ("<", ">="):
        return "returned EOF" if relation == "<" else "returned a byte, not EOF"
    return f"returned {(POINTERS if pointer else NUMBERS)[relation]}"
