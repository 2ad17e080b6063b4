"""Memory as bytes: the library's functions of it, and what it begins with."""
from typing import Any, Dict, List, Sequence, Tuple

from cbi_port.blocks import Declarator, Declare, Definition, Evaluate, Head, If, Record, Return, Statement
from cbi_port.byte_objects import BASE, STACK, ByteObjects
from cbi_port.images import MOST_LISTED, runs
from cbi_port.nodes import Assign, Binary, Braces, Call, Name, Node, Number, Part, String
from cbi_port.system import quoted
from cbi_port.types import CHAR, INT, UINT, VOID, Function, Pointer
from cbi_port.values import Value, word


def table(name: str, numbers: Sequence[int]) -> Declare:
    """An array of numbers without signs."""
    items = tuple(Number(UINT, number, number > 0x7fffffff) for number in numbers)
    return Declare(Declarator(UINT, "unsigned", 0, name, (len(items),)), Braces(UINT, items))


def head(name: str, result: str, *parameters: str) -> Head:
    """The head of a function that takes numbers without signs."""
    return Head(name, result, 0, tuple(Declarator(UINT, "unsigned", 0, it) for it in parameters))


def number_function(name: str, number: int) -> Definition:
    """A function that gives a number."""
    return Definition(head(name, "unsigned"), (), (Return(word(number)),))


class Bytes(ByteObjects):
    """The model of memory in which objects are laid out in bytes."""

    def __init__(self, program: Any) -> None:
        super().__init__(program)
        self.start: List[Statement] = []     # what is done first of all

    # The library, and the whole.

    def calls(self) -> Dict[str, Any]:
        names = {"malloc": ("malloc", UINT), "free": ("free", None), "calloc": ("calloc", UINT), "realloc": ("realloc", UINT), "memcpy": ("copy", None),
                 "memmove": ("move", None), "memset": ("fill", None), "memcmp": ("compare", None), "mempcpy": ("copy_behind", None), "bcmp": ("compare", None),
                 "alloca": ("alloca", None), "strlen": ("length", None), "strcpy": ("copy_text", None), "strcmp": ("compare_text", None)}
        kinds = {"malloc": [UINT], "free": [0], "calloc": [UINT, UINT], "realloc": [0, UINT], "memcpy": [0, 0, UINT], "memmove": [0, 0, UINT],
                 "memset": [0, INT, UINT], "memcmp": [0, 0, UINT], "mempcpy": [0, 0, UINT], "bcmp": [0, 0, UINT], "alloca": [UINT], "strlen": [0],
                 "strcpy": [0, 0], "strcmp": [0, 0]}
        results = {"free": VOID, "memcmp": INT, "bcmp": INT, "strlen": UINT, "strcmp": INT, "strcpy": Pointer(CHAR)}
        table: Dict[str, Any] = {}
        for name, (word_, _) in names.items():
            def call(node: Any, arguments: Any, used: bool, name: str = word_, row: Any = kinds[name], result: Any = results.get(name, Pointer(VOID))) -> Value:
                if name == "alloca" and not self.program.function.frame:
                    self.frame_room(4)
                if len(arguments) < len(row):
                    raise self.program.refuse(node, "a call with too few arguments", "an argument for each parameter")
                given = self.given(arguments, [Pointer(VOID) if type_ == 0 else type_ for type_ in row], node)
                return Value(result, Call(result, f"cbi_{name}", given), pure=False)
            table[name] = call
        table["qsort"] = self.call_qsort
        table["qsort_r"] = self.call_qsort_r
        table["bsearch"] = self.call_bsearch
        table["bzero"] = self.call_bzero
        table["bcopy"] = lambda node, arguments, used: self.sized("cbi_move_turned", arguments, (Pointer(VOID), Pointer(VOID), UINT), node)
        return table

    def given(self, arguments: Any, row: Any, node: Any) -> Tuple[Node, ...]:
        """The arguments in the types that a function takes."""
        program = self.program
        return tuple(program.converted(program.value(it), type_, True, node).code for it, type_ in zip(arguments, row))

    def sized(self, name: str, arguments: Any, row: Any, node: Any, result: Any = VOID) -> Value:
        """A call of one of the functions of memory."""
        return Value(result, Call(result, name, self.given(arguments, row, node)), pure=False)

    def call_bzero(self, node: Any, arguments: Any, used: bool) -> Value:
        at, count = self.given(arguments, (Pointer(VOID), UINT), node)
        return Value(VOID, Call(VOID, "cbi_fill", (at, Number(INT, 0), count)), pure=False)

    def call_qsort(self, node: Any, arguments: Any, used: bool) -> Value:
        self.program.order_by(0)
        compare = Pointer(Function(INT, (Pointer(VOID), Pointer(VOID)), False, True))
        return self.sized("cbi_sort", arguments, (Pointer(VOID), UINT, UINT, compare), node)

    def call_qsort_r(self, node: Any, arguments: Any, used: bool) -> Value:
        self.program.order_by(1)
        compare = Pointer(Function(INT, (Pointer(VOID), Pointer(VOID), Pointer(VOID)), False, True))
        return self.sized("cbi_sort_with", arguments, (Pointer(VOID), UINT, UINT, compare, Pointer(VOID)), node)

    def call_bsearch(self, node: Any, arguments: Any, used: bool) -> Value:
        self.program.order_by(0)
        compare = Pointer(Function(INT, (Pointer(VOID), Pointer(VOID)), False, True))
        return self.sized("cbi_search", arguments, (Pointer(VOID), Pointer(VOID), UINT, UINT, compare), node, Pointer(VOID))

    def orders(self, helpers: Any) -> None:
        """How two elements are compared, also with what a sort hands on."""
        plain, handed = self.program.sort_call, self.program.sort_call_with
        if not plain and not handed:
            return
        given = tuple(Name(UINT, it) for it in ("order", "a", "b"))
        rows: List[Statement] = [Return(Call(INT, plain, given) if plain else Number(INT, 0))]
        if handed:
            with_ = Name(UINT, "cbi_with")
            value, is_ = Part(UINT, with_, "value"), Part(INT, with_, "is")
            self.sort_with(helpers, value, is_)
            rows.insert(0, If(is_, Return(Call(INT, handed, (*given, value)))))
        helpers.add(Definition(head("cbi_order", "int", "order", "a", "b"), (), tuple(rows)))

    def sort_with(self, helpers: Any, value: Node, is_: Node) -> None:
        """A sort that hands something to each comparison."""
        at, count, size, order, with_ = names = tuple(Name(UINT, it) for it in ("at", "count", "size", "order", "with"))
        before, was = Name(UINT, "before"), Name(INT, "was")
        helpers.heads += [Record("cbi_handed", (Declarator(UINT, "unsigned", 0, "value"), Declarator(INT, "int", 0, "is"))),
                          Declare(Declarator(UINT, "struct cbi_handed", 0, "cbi_with")), head("cbi_sort", "void", *(it.name for it in names[:4]))]
        sets = [(value, with_), (is_, Number(INT, 1)), (value, before), (is_, was)]
        rows: List[Statement] = [Evaluate(Assign(to.type, to, it)) for to, it in sets]
        rows.insert(2, Evaluate(Call(VOID, "cbi_sort", (at, count, size, order))))
        first = (Declare(Declarator(UINT, "unsigned", 0, "before"), value), Declare(Declarator(INT, "int", 0, "was"), is_))
        helpers.add(Definition(head("cbi_sort_with", "void", *(it.name for it in names)), first, tuple(rows)))

    def main_arguments(self, helpers: Any, count: int) -> Tuple[List[Node], List[Statement]]:
        if count == 0:
            return [], []
        words = self.program.args
        if words == "first-line":
            at = self.words_room()
            begin = Declare(Declarator(INT, "int", 0, "cbi_count"), Call(INT, "cbi_first_line", (word(at),)))
            return [Name(INT, "cbi_count"), word(at), word(at + 4 * 66)][:count], [begin]
        row = ["prog"] + list(words or [])
        at = self.static_room(4 * (len(row) + 2), 4)
        for index, text in enumerate(row):
            data = text.encode("utf-8") + b"\0"
            place = self.static_room(len(data), 1)
            self.write(place - BASE, data, None)
            self.write(at - BASE + 4 * index, place.to_bytes(4, "little"), None)
        given: List[Node] = [Number(INT, len(row)), word(at), word(at + 4 * (len(row) + 1))]
        return given[:count], []

    words_at = 0

    def words_room(self) -> int:
        """Where the words of the input's first line are."""
        self.words_at = self.words_at or self.static_room(4 * 70, 4)
        return self.words_at

    def word_of_main(self, number: Node) -> Node:
        return Call(Pointer(CHAR), "cbi_load_word", (Binary(UINT, "+", word(self.words_room()), Binary(UINT, "*", word(4), number)),))

    def begin(self, name: str, table: str, count: int) -> None:
        """Says of a table of what memory begins with that it is read first of all."""
        self.start.append(Evaluate(Call(VOID, name, (Name(Pointer(UINT), table), word(count)))))

    def finish_memory(self, helpers: Any) -> None:
        """Declares the memory, with what it begins with."""
        while len(self.image) % self.frames:
            self.image.append(0)
        end = BASE + len(self.image)
        if end + STACK + 65536 > 4 * self.words:
            raise self.program.refuse(None, "more than two and a half megabytes of objects", "smaller arrays")
        data = self.image.rstrip(b"\0")
        words = runs([int.from_bytes(data[at:at + 4].ljust(4, b"\0"), "little") for at in range(0, len(data), 4)])
        helpers.heads.insert(0, Declare(Declarator(UINT, "unsigned", 0, "cbi_m", (self.words,))))
        if len(words) > MOST_LISTED:
            bytes_ = b"".join(it.to_bytes(4, "little") for it in words)
            self.start.append(Evaluate(Call(VOID, "cbi_begin_text", (String(Pointer(CHAR), quoted(bytes_)), word(len(words))))))
        elif words:
            helpers.heads.insert(1, table("cbi_image", words))
            self.begin("cbi_begin", "cbi_image", len(words))
        for name, at in (("cbi_stack_begin", end), ("cbi_heap_begin", end + STACK), ("cbi_heap_end", 4 * self.words)):
            helpers.add(number_function(name, at))
        self.orders(helpers)
