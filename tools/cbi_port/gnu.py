"""What GNU C writes beside C99: left out where it changes nothing, written as C99 where it can be, refused else."""
import re
from typing import Dict, List, Sequence, Set, Tuple

from cbi_port import aliases, beginnings, cleanups, modes, nested
from cbi_port.constants import plain_string, wide_character, wide_prefix
from cbi_port.left_out import typedef_names, with_int
from cbi_port.lines import Refusal, Token
from cbi_port.scopes import BUILTIN
from cbi_port.neighbours import (OPENS, case_end, closes_struct, closing, declared_name, is_declared, like, literal_begin,
                                 TYPE_WORDS, moves, names_around, range_within, sign, split, unary_place, within_struct)

SPELLINGS = {
    "__const": "const", "__const__": "const", "__volatile": "volatile", "__volatile__": "volatile",
    "__inline": "inline", "__inline__": "inline", "__restrict": "restrict", "__restrict__": "restrict",
    "__signed": "signed", "__signed__": "signed", "__extension__": "", "__thread": "", "_Thread_local": "",
    "_Noreturn": "", "__typeof": "typeof", "__typeof__": "typeof", "__asm": "asm", "__asm__": "asm",
    "__alignof": "_Alignof", "__alignof__": "_Alignof", "__attribute": "__attribute__",
    "__func__": "__func__", "__FUNCTION__": "__func__", "__PRETTY_FUNCTION__": "__func__", "__builtin_offsetof": "offsetof",
    "_Float32": "float", "_Float64": "double",
    "__complex__": "_Complex", "__complex": "_Complex",
}
LATER_C = {"_Atomic", "_Alignas", "_Generic", "__auto_type"}
KEPT = {"__builtin_va_list", "__builtin_va_start", "__builtin_va_end", "__builtin_va_copy", "__builtin_va_arg",
        "__builtin_types_compatible_p", "__builtin_assert", "__builtin_constant_p", "__builtin_choose_expr", "__builtin_expect"}
# Attributes that change what a program does, or how its memory is laid out.
WEIGHTY = {"vector_size", "scalar_storage_order", "ifunc", "weakref",
           "transparent_union", "ms_struct", "no_instrument_function_x", "naked", "interrupt", "bitwidth"}
# Attributes by which gcc keeps what nothing mentions: a linker may find it by its section.
KEPT_BY = {"used", "retain", "section"}


class Rewriter:
    """`bodies` are the names of the functions that hold what stood within expressions."""

    def __init__(self, first: int, problems: List[Refusal], types: Set[str]) -> None:
        self.first, self.problems, self.types = first, problems, types
        self.bodies: Set[str] = set()
        self.behind: List[Token] = []
        self.early: List[str] = []
        self.count = 0
        self.packs = [0]
        self.alignments: Dict[str, List[List[Token]]] = {}
        self.pending: List[Token] = []      # what is said of a struct before its brace
        self.of_member: List[Token] = []    # what is said of a member, or of a variable, before its end
        self.literals: List[Token] = []     # the braces of compound literals
        self.runs: List[beginnings.Run] = []
        self.aliases: List[aliases.Alias] = []
        self.kept: Set[str] = set()         # what an attribute keeps though nothing may mention it
        self.inner = 0                      # how many expressions with statements are open

    def pack(self, token: Token, out: List[Token]) -> None:
        """`#pragma pack`: members of structs stand closer."""
        words = re.findall(r"push|pop|\d+", token.text[token.text.index("("):])
        if "push" in words:
            self.packs.append(self.packs[-1])
        if "pop" in words and len(self.packs) > 1:
            self.packs.pop()
        if words and words[-1].isdigit() or not words:
            self.packs[-1] = int(words[-1]) if words else 0

    def refuse(self, token: Token, construct: str, advice: str, out: List[Token]) -> None:
        # Where the tokens will stand isn't known yet: the refusal keeps the token, and is told by it.
        problem = Refusal(-1, construct, advice)
        problem.sure = True
        problem.token = token  # type: ignore[attr-defined]
        self.problems.append(problem)

    def name(self, kind: str) -> str:
        self.count += 1
        return f"__cbi_{kind}_{self.first}_{self.count}"

    def run(self, tokens: Sequence[Token]) -> List[Token]:
        """The tokens brought to what pycparser reads."""
        out: List[Token] = []
        at = 0
        while at < len(tokens):
            at = self.step(tokens, at, out)
        return out

    def step(self, tokens: Sequence[Token], at: int, out: List[Token]) -> int:
        token = tokens[at]
        text = token.text
        after = tokens[at + 1].text if at + 1 < len(tokens) else ""
        if token.kind == "pragma" and re.match(r"#\s*pragma\s+pack\s*\(\s*(push|pop|push\s*,\s*\d+|\d*)\s*\)\s*$", text):
            self.pack(token, out)
            return at + 1
        if token.kind in ("pragma", "byte"):
            what = f"`{text}`" if token.kind == "pragma" else f"the byte `{text}`"
            self.refuse(token, what, "nothing in its place" if token.kind == "pragma" else "a character of C", out)
            return at + 1
        if token.kind == "string":
            return self.string(tokens, at, out)
        if token.kind == "char" and text[0] != "'":
            out.append(like(token, str(wide_character(text)), "number"))
            return at + 1
        if token.kind == "name":
            return self.word(tokens, at, out)
        if text == "?" and after == ":":
            out.extend([token, like(token, "__cbi_same", "name")])
            return at + 1
        if text == "&&" and at + 1 < len(tokens) and tokens[at + 1].kind == "name" and (not out or unary_place(out[-1])):
            out.extend([like(token, "__cbi_label", "name"), like(token, "("), tokens[at + 1], like(token, ")")])
            return at + 2
        if text == ":" and after == "}":
            out.extend([token, like(token, ";")])
            return at + 1
        if text == "{" and len(out) > 1 and (out[-1].text in ("struct", "union") or out[-2].text in ("struct", "union")):
            out.append(token)
            out.extend(self.pending)
            if self.packs[-1]:
                out.extend(sign(token, "packed", [like(token, str(self.packs[-1]), "number")]))
            self.pending = []
            return at + 1
        if text == "{" and out and out[-1].text == ")":
            begin = literal_begin(tokens, at, out)
            if begin is not None:
                return self.literal(tokens, at, out, begin)
        if text == ";":
            out.append(token)
            out.extend(self.of_member)
            self.of_member = []
            return at + 1
        if text == "(" and after == "{" and not (out and out[-1].text in ("sizeof",)):
            return self.statement_expression(tokens, at, out)
        if text == "[" and range_within(tokens, at):
            close = closing(tokens, at)
            out.append(token)
            self.ranged(tokens[at + 1:close], token, out)
            out.append(tokens[close])
            return close + 1
        out.append(token)
        return at + 1

    def string(self, tokens: Sequence[Token], at: int, out: List[Token]) -> int:
        """Strings side by side: one wide one makes all of them wide (6.4.5p4)."""
        end = at
        while end < len(tokens) and tokens[end].kind == "string":
            end += 1
        prefixes = {wide_prefix(it.text) for it in tokens[at:end]} - {"", "u8"}
        if prefixes - {"L", "U"}:
            self.refuse(tokens[at], "a string of characters of 16 bits", "a string", out)
        for it in tokens[at:end]:
            body = it.text[len(wide_prefix(it.text)):]
            out.append(like(it, "L" + body if prefixes else plain_string(body), "string"))
        return end

    def ranged(self, within: Sequence[Token], token: Token, out: List[Token]) -> None:
        cut = [index for index, it in enumerate(within) if it.text == "..."][0]
        out.extend([like(token, "__cbi_range", "name"), like(token, "(")])
        out.extend(self.run(within[:cut]))
        out.append(like(token, ","))
        out.extend(self.run(within[cut + 1:]))
        out.append(like(token, ")"))

    def word(self, tokens: Sequence[Token], at: int, out: List[Token]) -> int:
        token = tokens[at]
        text = SPELLINGS.get(token.text, token.text)
        after = tokens[at + 1].text if at + 1 < len(tokens) else ""
        if not text:
            return at + 1
        if text == "__attribute__" and after == "(":
            close = closing(tokens, at + 1)
            self.attribute(tokens[at + 1:close + 1], token, tokens, close, out)
            return close + 1
        if text == "asm":
            return self.assembler(tokens, at, out)
        if text == "__label__":
            while at < len(tokens) and tokens[at].text != ";":
                at += 1
            return at + 1
        if text in ("_Static_assert", "static_assert") and after == "(":
            at = closing(tokens, at + 1) + 1
            return at + 1 if at < len(tokens) and tokens[at].text == ";" else at
        if text == "typeof" and after == "(":
            return self.typeof(tokens, at, out)
        if text in ("__builtin_types_compatible_p", "__builtin_va_arg") and after == "(":
            return self.with_types(tokens, at, out)
        if text == "case":
            end = case_end(tokens, at)
            if any(it.text == "..." for it in tokens[at:end]):
                out.append(token)
                self.ranged(tokens[at + 1:end], token, out)
                return end
        if text == "goto" and after == "*":
            end = at
            while tokens[end].text != ";":
                end += 1
            out.extend([like(token, "__cbi_goto", "name"), like(token, "(")] + self.run(tokens[at + 2:end]) + [like(token, ")")])
            return end
        if text in LATER_C:
            return self.later_c(text, tokens, at, out)
        if text in ("_Complex", "__int128", "__int128_t", "__uint128_t", "__float128", "_Float128", "__float80", "_Float16", "_Decimal32", "_Decimal64", "_Decimal128"):
            self.refuse(token, f"`{token.text}`", "a real type of C99", out)
            if text == "_Complex":
                return at + 1
            text = "int"
        if text == "_Alignof" and after == "(" and at + 3 < len(tokens) and tokens[at + 2].text in self.alignments and tokens[at + 3].text == ")":
            out.extend(like(token, it.text, it.kind) for it in self.greatest(self.alignments[tokens[at + 2].text], token))
            return at + 4
        if text == "_Alignof" and after == "(":
            # GNU C's own asks for what an object alone gets, C11's for the least (C11 6.5.3.4).
            text = "__cbi_align" if token.text == "_Alignof" else "__cbi_align_alone"
            if any(it.text.strip("_") == "aligned" for it in tokens[at + 2:closing(tokens, at + 1)]):
                self.refuse(token, "an alignment in the name of a type", "a `typedef` with it", out)
            out.extend([like(token, text, "name"), like(token, "("), like(token, "sizeof", "name")])
            close = closing(tokens, at + 1)
            out.extend(self.run(tokens[at + 1:close + 1]))
            out.append(like(token, ")"))
            return close + 1
        if text.startswith("__builtin_") and text not in KEPT:
            text = BUILTIN + text[len("__builtin_"):]
        if after == ":" and out and out[-1].text in ("{", ",") and self.in_initialiser(out) and not (
                at + 2 < len(tokens) and tokens[at + 2].text == ":"):
            out.extend([like(token, "."), like(token, text, "name"), like(token, "=")])
            return at + 2
        out.append(like(token, text, "name"))
        return at + 1

    def in_initialiser(self, out: Sequence[Token]) -> bool:
        """Whether the innermost open brace begins an initialiser."""
        depth = 0
        for index in range(len(out) - 1, -1, -1):
            text = out[index].text
            if text in ("}", ")", "]"):
                depth += 1
            elif text in OPENS:
                if depth:
                    depth -= 1
                elif text != "{":
                    return False
                else:
                    before = out[index - 1].text if index else ""
                    if before == "=" or any(out[index] is it for it in self.literals):
                        return True
                    return before in ("{", ",") and self.in_initialiser(out[:index])
        return False

    def attribute(self, within: Sequence[Token], token: Token, tokens: Sequence[Token], close: int, out: List[Token]) -> None:
        names = {it.text.strip("_") for it in within if it.kind == "name"}
        self.meaning(names, within, token, tokens[close + 1:close + 1000], out)
        signs = sign(token, "packed", [like(token, "1", "number")]) if "packed" in names else []
        amounts: List[List[Token]] = []
        for at, it in enumerate(within):
            if it.text.strip("_") == "aligned":
                said = within[at + 1].text == "("
                amounts.append(list(within[at + 2:closing(within, at + 1)]) if said else [like(token, "16", "number")])
                signs += sign(token, "aligned", self.run(amounts[-1]))
        if not signs or not out:
            return
        if out[-1].text == "}" and closes_struct(out):
            out[-1:-1] = signs
        elif out[-1].text in ("struct", "union"):
            self.pending = signs
        elif within_struct(out):
            self.of_member += [it if not it.text.startswith("__cbi") else like(it, "__cbi_member" + it.text[5:], "name") for it in signs]
        elif "packed" not in names:
            for amount in amounts:
                self.aligned(token, amount, out, tokens[close + 1:close + 40])

    def meaning(self, names: Set[str], within: Sequence[Token], token: Token, behind: Sequence[Token], out: List[Token]) -> None:
        """What an attribute says of what a program does."""
        wrong = sorted(names & WEIGHTY)
        if wrong:
            self.refuse(token, f"`__attribute__(({wrong[0]}))`", "the declaration without it, where that does the same", out)
        for run in beginnings.runs_of(within, out, behind[:60]):
            if run is None:
                self.kept |= names_around(out, behind)
                self.refuse(token, "a `constructor` or `destructor` of this form", "`__attribute__((constructor(NUMBER)))` at a function", out)
            else:
                self.runs.append(run)
        if names & KEPT_BY:
            self.kept |= names_around(out, behind)
        if "mode" in names and not modes.put(within, out, behind[:1]):
            self.refuse(token, "`__attribute__((mode))`", "a type of that size", out)
        if "alias" in names:
            alias = aliases.said(within, out)
            if alias is None:
                self.refuse(token, "an `alias` of this form", "a declaration of one name alone, outside functions", out)
            else:
                self.aliases.append(alias)
        if "cleanup" in names:
            marks = cleanups.marks(within, out, behind, self.inner > 0)
            if marks is None:
                self.refuse(token, "a `cleanup` in the head of a `for`, or of this form", "a declaration of the variable alone, in a block", out)
            self.of_member += marks or []

    def aligned(self, token: Token, amount: List[Token], out: List[Token], behind: Sequence[Token]) -> None:
        """An alignment of a variable, which its address shows, or of a function."""
        depth = 0
        for at in range(len(out) - 1, -1, -1):
            depth += (out[at].text == "}") - (out[at].text == "{")
            if depth < 0 or depth == 0 and out[at].text in (";", "}"):
                break
        name = declared_name(out) or next((it.text for it, more in zip(behind, behind[1:]) if it.kind == "name" and more.text in (";", "=", "[", ",")), "")
        self.alignments.setdefault(name, []).append(self.run(amount))

    def hold_alignments(self, amounts: Sequence[Sequence[Token]]) -> str:
        """The name of a function that holds what an alignment must at least be."""
        name = self.name("aligned")
        self.holds(name, [it for amount in amounts for it in [*amount, like(amount[0], ";")]], amounts[0][0])
        return name

    def greatest(self, amounts: Sequence[Sequence[Token]], token: Token) -> List[Token]:
        """The greatest of constants, as an expression."""
        first = [like(token, "("), *amounts[0], like(token, ")")]
        if len(amounts) == 1:
            return first
        rest = self.greatest(amounts[1:], token)
        return [like(token, "("), *first, like(token, ">"), *rest, like(token, "?"), *first, like(token, ":"), *rest, like(token, ")")]

    def literal(self, tokens: Sequence[Token], at: int, out: List[Token], begin: int) -> int:
        """A compound literal (6.5.2.5); where an operator stands behind it, it gets parentheses."""
        close = closing(tokens, at)
        within = [like(tokens[at], "{")]
        self.literals.append(within[0])
        index = at + 1
        while index < close:
            index = self.step(tokens, index, within)
        if len(within) == 1:
            within.append(like(tokens[at], "__cbi_none", "name"))
        within.append(tokens[close])
        if close + 1 < len(tokens) and tokens[close + 1].text in ("[", ".", "->") or begin and out[begin - 1].text == "sizeof":
            out.insert(begin, like(out[begin], "("))
            within.append(like(tokens[close], ")"))
        out.extend(within)
        return close + 1

    def assembler(self, tokens: Sequence[Token], at: int, out: List[Token]) -> int:
        token = tokens[at]
        begin = at + 1
        while tokens[begin].text in ("volatile", "__volatile__", "__volatile", "goto", "inline"):
            begin += 1
        if tokens[begin].text != "(":
            out.append(token)
            return at + 1
        close = closing(tokens, begin)
        within = tokens[begin + 1:close]
        before = out[-1].text if out else ";"
        if out and (out[-1].kind == "name" and before not in ("else", "do") or before in (")", "]") and is_declared(out)):
            return close + 1
        template = "".join(it.text[1:-1] for it in within[:next((k for k, it in enumerate(within) if it.text == ":"), len(within))])
        if template.replace("\\n", "").replace("\\t", "").strip() and not re.match(r"^\s*[#;]", template):
            self.refuse(token, "`asm`", "C that calculates the same, or a branch without it (`-U` of the name that asks for it)", out)
        moved, effects = moves(within)
        for left, right in moved:
            out.extend([like(token, "(")] + self.run(left) + [like(token, ")"), like(token, "="), like(token, "(")]
                       + self.run(right) + [like(token, ")"), like(token, ",")])
        for what in effects:
            out.extend([like(token, "(")] + self.run(what) + [like(token, ")"), like(token, ",")])
        if moved or effects:
            out.append(like(token, "0", "number"))
        return close + 1

    def later_c(self, text: str, tokens: Sequence[Token], at: int, out: List[Token]) -> int:
        """What C11 has, and a type that is that of what a variable begins with."""
        token, close = tokens[at], at
        if at + 1 < len(tokens) and tokens[at + 1].text == "(":
            close = closing(tokens, at + 1)
        within = tokens[at + 2:close]
        if text == "_Atomic":
            out.extend(self.run(within))
        elif text == "_Alignas":
            named = within and (within[0].text in TYPE_WORDS | {"struct", "union", "enum"} | self.types or SPELLINGS.get(within[0].text) == "typeof")
            amount = [like(token, "_Alignof", "name"), like(token, "("), *within, like(token, ")")] if named else list(within)
            if within_struct(out):
                self.of_member += sign(token, "member_aligned", self.run(amount))
            else:
                self.aligned(token, amount, out, tokens[close + 1:close + 40])
        elif text == "_Generic":
            out.extend([like(token, "__cbi_generic", "name"), like(token, "(")] + self.choices(within, token) + [like(token, ")")])
        else:
            end = at + 3
            while end < len(tokens) and tokens[end].text not in (";", ","):
                end = closing(tokens, end) + 1 if tokens[end].text in OPENS else end + 1
            self.typed_as([like(token, "("), *tokens[at + 3:end], like(token, ")")], token, out)
        return close + 1

    def choices(self, within: Sequence[Token], token: Token) -> List[Token]:
        """The parts of a `_Generic` (C11 6.5.1.1): types are written as `sizeof(T)`, which keeps them. A `:` in the first part, or a later one in another, is that of a `?:`."""
        first, *entries = split(within, ",")
        out: List[Token] = [*self.run(first), like(token, ",")]
        for entry in entries:
            head = split(entry, ":")[0]
            if entry[0].text == "default":
                out.extend([like(token, "__cbi_default", "name"), like(token, ",")])
            else:
                out.extend([like(token, "sizeof", "name"), like(token, "("), *self.run(head), like(token, ")"), like(token, ",")])
            out.extend([*self.run(entry[len(head) + 1:]), like(token, ",")])
        return out[:-1]

    def typeof(self, tokens: Sequence[Token], at: int, out: List[Token]) -> int:
        close = closing(tokens, at + 1)
        self.typed_as(tokens[at + 1:close + 1], tokens[at], out)
        return close + 1

    def typed_as(self, what: Sequence[Token], token: Token, out: List[Token]) -> None:
        """The type of an expression, or a type, in parentheses."""
        name = self.name("typeof")
        self.early.append(name)
        self.holds(name + "_of", [like(token, "sizeof", "name"), *self.run(what), like(token, ";")], token)
        out.append(like(token, name, "name"))

    def with_types(self, tokens: Sequence[Token], at: int, out: List[Token]) -> int:
        """Arguments that are types are written as `sizeof(T)`, which keeps them."""
        token = tokens[at]
        close = closing(tokens, at + 1)
        depth, cut = 0, close
        for index in range(at + 1, close):
            depth += (tokens[index].text in OPENS) - (tokens[index].text in (")", "]", "}"))
            if depth == 1 and tokens[index].text == ",":
                cut = index
        left, right = self.run(tokens[at + 2:cut]), self.run(tokens[cut + 1:close])
        size = [like(token, "sizeof", "name"), like(token, "(")]
        if token.text == "__builtin_va_arg":
            out.extend([like(token, "__cbi_va_arg", "name"), like(token, "("), *left, like(token, ","), *size, *right, like(token, ")"), like(token, ")")])
        else:
            out.extend([like(token, "__cbi_same_types", "name"), like(token, "("), *size, *left, like(token, ")"), like(token, ","),
                        *size, *right, like(token, ")"), like(token, ")")])
        return close + 1

    def statement_expression(self, tokens: Sequence[Token], at: int, out: List[Token]) -> int:
        close = closing(tokens, at)
        name = self.name("statement")
        behind, self.of_member = self.of_member, []
        self.inner += 1
        self.holds(name, self.run(tokens[at + 2:close - 1]), tokens[at])
        self.inner, self.of_member = self.inner - 1, behind
        out.extend([like(tokens[at], name, "name"), like(tokens[at], "("), like(tokens[at], ")")])
        return close + 1

    def holds(self, name: str, body: Sequence[Token], token: Token) -> None:
        self.bodies.add(name)
        head = ["void", name, "(", "void", ")", "{"]
        self.behind.extend([like(token, it, "name") for it in head] + list(body) + [like(token, "}")])


def rewrite(tokens: Sequence[Token], first: int, problems: List[Refusal]) -> Tuple[List[Token], Set[str], Dict[str, str], List[aliases.Alias], Set[str]]:
    """The tokens as pycparser reads them, the names of the functions that were added behind them, and of those that hold the alignments that
    are asked for, by the names of the variables; names that stand for others; and names that an attribute keeps."""
    tokens = nested.lifted(tokens)
    types = typedef_names(tokens)
    rewriter = Rewriter(first, problems, types)
    main = with_int(rewriter.run(tokens), types)
    alignments = {name: rewriter.hold_alignments(amounts) for name, amounts in rewriter.alignments.items()}
    file, line = (tokens[0].file, 0) if tokens else ("", 0)
    early: List[Token] = []
    for name in ["__builtin_va_list", *rewriter.early]:
        early.extend(Token("name", it, file, line) for it in ("typedef", "int", name, ";"))
    whole = early + main + rewriter.behind + beginnings.functions(rewriter.runs, first)
    places: Dict[Tuple[str, int], int] = {}
    for index, token in enumerate(whole):
        places.setdefault((token.file, token.line), first + index)
    for problem in problems:
        asked = getattr(problem, "token", None)
        if problem.at < 0 and asked is not None:
            problem.at = places.get((asked.file, asked.line), first)
            if whole and whole[problem.at - first].line != asked.line:
                problem.construct += f" (line {asked.line})"
    return whole, rewriter.bodies, alignments, rewriter.aliases, rewriter.kept
