"""The library (C99 7): what the dialect has, what goes by the types of its arguments, and what the prelude has."""
import re
from typing import Any, Dict, List, Optional, Sequence, Tuple

from cbi_port import forms
from cbi_port.alike import innermost, is_address, like_char
from cbi_port.conversions import number
from cbi_port.gnu_calls import OVERFLOWS, GnuCalls
from cbi_port.lines import Refusal
from cbi_port.nodes import POSTFIX, UNARY, Assign, Binary, Call, Cast, Name, Node, Number, String, Wide, bare, held, level, marked, sequence, spot, walk
from cbi_port.objects import ROUNDED
from cbi_port.reader import HEADERS
from cbi_port.scan_calls import ScanCalls
from cbi_port.scopes import Symbol
from cbi_port.system import SET_ALONE, SETS_VARIABLES, TOLD, VARIABLES
from cbi_port.trees import kind, without_casts
from cbi_port.types import (CHAR, INT, LONG, UINT, VOID, Array, CType, Function, Int, Pointer, Struct, Void, is_float, is_long, is_pointer, same, size_of,
                            spelled)
from cbi_port.values import Value, retyped, word

# What the dialect has itself.
OWN: Dict[str, Function] = {
    "abort": Function(VOID, (), False, True), "exit": Function(VOID, (INT,), False, True),
    "putchar": Function(INT, (INT,), False, True), "getchar": Function(INT, (), False, True),
    "puts": Function(INT, (Pointer(CHAR),), False, True),
}
ANY, SIZED = Pointer(VOID), (Pointer(VOID), Pointer(VOID), UINT)
# Functions of the text that is added where memory is bytes.
RAW = {"memcpy": ("cbi_copy", Function(ANY, SIZED, False, True)), "memmove": ("cbi_move", Function(ANY, SIZED, False, True)),
       "memset": ("cbi_fill", Function(ANY, (ANY, INT, UINT), False, True)), "memcmp": ("cbi_compare", Function(INT, SIZED, False, True)),
       "malloc": ("cbi_malloc", Function(ANY, (UINT,), False, True)), "free": ("cbi_free", Function(VOID, (ANY,), False, True)),
       "calloc": ("cbi_calloc", Function(ANY, (UINT, UINT), False, True)), "realloc": ("cbi_realloc", Function(ANY, (ANY, UINT), False, True))}
UNWOUND = "a status that each function returns, and that its caller tests"
NO = {**dict.fromkeys(["setjmp", "longjmp", "_setjmp", "_longjmp", "sigsetjmp", "siglongjmp"], UNWOUND),
      "fork": "one process, which does what both would do", "alloca": "`malloc`"}
# Of <math.h> what isn't there.
OF_BESSEL = {name + end for end in ("", "f", "l") for name in ("j0", "j1", "jn", "y0", "y1", "yn")}
TYPED = {"malloc", "calloc", "realloc", "free", "memcpy", "memmove", "memset", "memcmp", "mempcpy", "bzero", "bcopy", "bcmp", "qsort", "qsort_r", "bsearch", "alloca",
         "strdup", "fread", "fwrite", "read", "write"}


class Library(GnuCalls):
    """Calls of the library."""

    def library_function(self, name: str, node: Any) -> Optional[Symbol]:
        """A function of the prelude by its name."""
        if name in OWN and name not in self.wrapped:
            symbol = self.wrappers.get(name)
            if symbol is None:
                symbol = self.prelude_symbol("__" + name)
                if symbol is None:
                    return None
                self.wrappers[name] = symbol
            return symbol
        found = self.prelude_symbol(name)
        if (found is None or not found.defined) and name in self.model.own_calls and not name.startswith("lib_") and name in RAW:
            return self.raw_function(name, node)
        return found if found is not None and found.kind == "function" and found.defined else None

    def raw_function(self, name: str, node: Any) -> Symbol:
        """A function of memory as a value: of the text that is added, or of the prelude (makers.py)."""
        symbol: Optional[Symbol] = self.wrappers.get(name) if self.model.in_bytes else self.givers.of_library(name)
        if symbol is None and not self.model.in_bytes:
            raise self.refuse(node, f"`{name}` as a value", "a function of your own that calls it", True)
        if symbol is None:
            text, type_ = RAW[name]
            self.names.authors.setdefault(text, name)
            symbol = self.wrappers[name] = Symbol(name, "function", type_, text)
            symbol.outer = symbol.defined = True
            symbol.unit = "prelude"
        return symbol

    def library_call(self, name: str, node: Any, arguments: Sequence[Any], used: bool, symbol: Optional[Symbol]) -> Optional[Value]:
        """A call of the library; None where the name isn't one of it."""
        if symbol is not None and symbol.defined:
            return None
        at = self.place_of(node)
        if name in forms.PRINTS:
            arguments = self.in_order(node, arguments, forms.PRINTS[name])
        if name in OVERFLOWS:
            return self.overflowing(node, arguments, *OVERFLOWS[name])
        method = getattr(self, "lib_" + name, None)
        if method is not None:
            value = method(node, arguments, used)
            return self.placed(value, at)
        if name in self.model.own_calls:
            known: Optional[Value] = self.model.own_calls[name](node, arguments, used)
            if known is not None:
                self.library_used(name)
                return known
        if name in OWN and (self.in_prelude or name not in self.wrapped):
            self.library_used(name)
            return self.own_call(name, node, arguments)
        if name in self.wrapped and not self.in_prelude:
            self.library_used(name)
            name = "__" + name
        found = self.prelude_symbol(name)
        if found is not None and found.kind == "function" and found.defined:
            self.library_used(name)
            self.use(found)
            return self.called(found.text, found, found.type, arguments, node, used)
        dead = self.function.dead and symbol is not None
        if not dead and (name in NO or name.startswith("__builtin") or name in OF_BESSEL or symbol is not None and self.of_system(symbol)):
            raise self.missing(node, name)
        return None

    def by_use(self, node: Any, name: str) -> Symbol:
        """A function that its call declares; where a header isn't there, it may have been declared otherwise."""
        if self.partial and name not in self.externals:
            raise self.follow(node)
        return super().by_use(node, name)

    def of_system(self, symbol: Symbol) -> bool:
        """Whether a function or a variable is declared by a header of the system alone, and nowhere defined."""
        at = symbol.at
        return symbol.kind in ("function", "variable") and symbol.outer and not symbol.defined and symbol.unit != "prelude" and 0 <= at < len(self.tokens) and self.tokens[at].file.startswith(HEADERS)

    def variable_of_library(self, symbol: Symbol) -> Symbol:
        """A variable that a text only declares, where the library has it."""
        if symbol.name not in VARIABLES or symbol.kind != "variable" or not symbol.outer or symbol.defined or symbol.unit == "prelude":
            return symbol
        return self.prelude_symbol(symbol.name) or symbol

    def missing(self, node: Any, name: str) -> Refusal:
        """The refusal of what the system has and this library hasn't."""
        found = self.refuse(node, f"`{name}`", NO.get(name, "a function of your own" if name in OF_BESSEL else "a function of your own for it, in one of the files"), name in TYPED)
        found.sure = True
        return found

    def in_order(self, node: Any, arguments: Sequence[Any], at: int) -> Sequence[Any]:
        """The arguments in the order of a form that names them by number."""
        form = arguments[at] if len(arguments) > at else None
        if kind(form) != "Constant" or form.type != "string" or not forms.names_arguments(form.value):
            return arguments
        found, rest = forms.in_order(form.value), arguments[at + 1:]
        again = [it for place, it in enumerate(rest, 1) if found is not None and found[1].count(place) != 1]
        if found is None or max(found[1]) > len(rest) or not all(kind(it) in ("ID", "Constant") for it in again):
            raise self.refuse(node, "a form that names its arguments by number", "arguments in the form's order, each once")
        from pycparser import c_ast
        return [*arguments[:at], c_ast.Constant("string", found[0], form.coord), *(rest[place - 1] for place in found[1])]

    def placed(self, value: Value, at: int) -> Value:
        """A value of the library where its call stands, unless something of it stands there already."""
        there = level(value.code) != POSTFIX or isinstance(bare(value.code), Wide) or any(spot(it) == at for it in walk(value.code))
        return value if there else value._replace(code=marked(value.code, at))

    def library_used(self, name: str) -> None:
        if not self.in_prelude:
            if name in TOLD:
                self.liberties[TOLD[name] if name != "getenv" or not self.words & SETS_VARIABLES else SET_ALONE] = None
            self.library_names.add(name)
            self.counts["library functions"] = len(self.library_names)

    def own_call(self, name: str, node: Any, arguments: Sequence[Any]) -> Value:
        type_ = OWN[name]
        if len(arguments) != len(type_.parameters):
            if len(arguments) < len(type_.parameters):
                raise self.refuse(node, f"{len(arguments)} arguments of `{name}`", "an argument for each parameter")
        at = self.place_of(node)
        given = tuple(self.passed(self.value(it), parameter, node).code for it, parameter in zip(arguments, type_.parameters))
        if name == "exit" and self.exit_functions and not self.in_prelude:
            found = self.prelude_symbol("__cbi_exit_now")
            assert found is not None
            self.use(found)
            return Value(VOID, Call(VOID, found.text, given, found, at), pure=False)
        if self.model.in_bytes and name == "puts":
            return Value(INT, Call(INT, "cbi_puts", given, None, at), pure=False)
        return Value(type_.result, Call(type_.result, name, given, None, at), pure=False)

    def order_by(self, more: int) -> None:
        """Asks for the calls of functions that compare two elements, and what is handed on."""
        kinds = [Pointer(VOID)] * (2 + more)
        call = self.dispatcher(Function(INT, tuple(kinds), False, True), kinds)
        if more:
            self.sort_call_with = call
        else:
            self.sort_call = call

    # What has the same value in each model.

    def lib_abs(self, node: Any, arguments: Sequence[Any], used: bool) -> Value:
        found = self.prelude_symbol("abs")
        assert found is not None
        self.use(found)
        self.library_used("abs")
        value = self.value(arguments[0])
        if value.constant is not None and isinstance(value.type, Int):
            return number(abs(INT.wrap(value.constant)))
        return self.called(found.text, found, found.type, arguments, node, used)

    def lib___cbi_join_stderr(self, node: Any, arguments: Sequence[Any], used: bool) -> Value:
        return number(int(self.stderr))

    def lib___builtin_assert(self, node: Any, arguments: Sequence[Any], used: bool) -> Value:
        return self.lib_assert(node, arguments, used)

    def lib_assert(self, node: Any, arguments: Sequence[Any], used: bool) -> Value:
        self.library_used("assert")
        value = self.truth(self.value(arguments[0]))
        return Value(VOID, Call(VOID, "assert", (value.code,)), pure=False)

    def lib___builtin_va_start(self, node: Any, arguments: Sequence[Any], used: bool) -> Value:
        place = self.place(arguments[0])
        more = Name(place.type, "cbi_more")
        return self.model.store(place, Value(place.type, more), False) if place.memory else Value(VOID, Assign(VOID, place.code, more), pure=False)

    lib_va_start = lib___builtin_va_start
    lib_stdarg_start = lib___builtin_va_start

    def lib___builtin_va_end(self, node: Any, arguments: Sequence[Any], used: bool) -> Value:
        value = self.value(arguments[0])
        return Value(VOID, Cast(VOID, "void", value.code), pure=value.pure)

    lib_va_end = lib___builtin_va_end

    def lib___builtin_va_copy(self, node: Any, arguments: Sequence[Any], used: bool) -> Value:
        place = self.place(arguments[0])
        return self.model.store(place, self.value(arguments[1]), False).as_type(VOID)

    lib_va_copy = lib___builtin_va_copy

    # printf

    def lib_printf(self, node: Any, arguments: Sequence[Any], used: bool) -> Value:
        """`printf` as the dialect has it, where the statement is nothing else and the format is plain."""
        self.library_used("printf")
        plain = self.plain_printf(node, arguments) if node is self.function.whole and not self.model.in_bytes and "putchar" not in self.wrapped else None
        if plain is not None:
            return plain
        found = self.prelude_symbol("printf")
        assert found is not None
        self.use(found)
        return self.called(found.text, found, found.type, arguments, node, used)

    def plain_printf(self, node: Any, arguments: Sequence[Any]) -> Optional[Value]:
        if not arguments or kind(arguments[0]) != "Constant" or arguments[0].type != "string" or arguments[0].value[0] != '"':
            return None
        form = arguments[0].value
        found = re.findall(r"%(?:(l|h|hh|z|t)?([diucs%])|.)", form.replace("\\\\", "\\\\"), re.S)
        if any(not letter or length and letter not in "diu" for length, letter in found) or form.rstrip('"').endswith("%") and not form.rstrip('"').endswith("%%"):
            return None
        letters = [letter for _, letter in found if letter != "%"]
        lengths = [length for length, letter in found if letter != "%"]
        if len(letters) > len(arguments) - 1 or any(length in ("h", "hh") for length in lengths):
            return None
        given: List[Node] = []
        for letter, argument in zip(letters, arguments[1:]):
            value = self.value(argument)
            if letter == "s":
                if not is_pointer(value.type) or not like_char(value.type.to) or value.null:
                    return None
                given.append(value.code)
            elif not isinstance(value.type, Int) or is_long(value.type) or is_float(value.type):
                return None
            else:
                given.append(self.promoted(value).code)
        if len(arguments) - 1 > len(letters):
            return None
        form = re.sub(r"%(?:l|z|t)?([diucs%])", lambda it: "%" + ("d" if it[1] == "i" else it[1]), form)
        return Value(INT, Call(INT, "printf", (String(Pointer(CHAR), form), *given), None, self.place_of(node)), pure=False)

    def lib_clock(self, node: Any, arguments: Sequence[Any], used: bool) -> Value:
        self.library_used("clock")
        return number(0, LONG)

    def lib___cbi_word(self, node: Any, arguments: Sequence[Any], used: bool) -> Value:
        """A word of the input's first line."""
        at = self.converted(self.value(arguments[0]), UINT)
        return Value(Pointer(CHAR), self.model.word_of_main(held(at.code, UNARY)), pure=False)


class TypedCalls(ScanCalls):
    """Calls that go by the types of their arguments, where a cell keeps what was stored in it."""

    def table(self) -> Dict[str, Any]:
        return {name[5:]: getattr(self, name) for name in dir(self) if name.startswith("call_")}

    def pointer(self, node: Any) -> Tuple[Value, CType]:
        """An argument that is a pointer, and to what it points, also where it was cast."""
        program = self.program
        inner = node
        while kind(inner) == "Cast" and is_pointer(program.resolve(inner.to_type.type)):
            type_ = program.type_of(inner.expr)
            if not isinstance(type_, (Pointer, Array)) or isinstance(type_, Pointer) and isinstance(type_.to, Void):
                break
            inner = inner.expr
        value = program.value(inner)
        if not is_pointer(value.type):
            raise program.refuse(node, f"a `{spelled(value.type)}` where a pointer is wanted", "`&` of the object, or an array")
        return value, value.type.to

    def known(self, node: Any, name: str, *pointers: CType) -> CType:
        """The type that all pointers point to."""
        first = pointers[0]
        self.program.kinds.asked(pointers)
        for type_ in pointers:
            if isinstance(type_, (Void, Function)) or isinstance(type_, Struct) and not type_.complete:
                raise self.program.refuse(node, f"`{name}` of a `void *`", "a pointer to the type that is there", True)
            left, right = innermost(first)[0], innermost(type_)[0]
            if not (same(left, right) or like_char(left) and like_char(right) or isinstance(left, Int) and isinstance(right, Int)
                    and left.size == right.size == 4 and left.signed == right.signed):
                raise self.program.refuse(node, f"`{name}` between `{spelled(first)}` and `{spelled(type_)}`", "an assignment of each value", True)
        return first

    def exact(self, type_: CType, size: Any, places: Sequence[Any], node: Any) -> Value:
        """How many objects of a type so many bytes are, neither more nor less."""
        program = self.program
        whole = program.value(size)
        for place in places:
            if kind(place) == "UnaryOp" and place.op == "&" and kind(place.expr) == "StructRef" and whole.constant != size_of(program.type_of(place.expr)):
                raise program.refuse(node, "bytes of a struct from one member on", "an assignment of each member", True)
        if whole.constant is not None and whole.constant % max(size_of(type_), 1):
            raise program.refuse(node, f"a part of a `{spelled(type_)}`", "an assignment of each value", True)
        count: Value = program.model.objects(type_, [size])
        if count.origin == ROUNDED:
            return Value(UINT, Call(UINT, "cbi_exact", (program.converted(whole, UINT, True).code, word(size_of(type_)))), pure=False)
        return count

    def call_malloc(self, node: Any, arguments: Sequence[Any], used: bool) -> Value:
        program = self.program
        count = program.converted(program.value(arguments[0]), UINT, True, node)
        value: Value = program.model.fresh(count, [arguments[0]], False)
        return value

    def call_calloc(self, node: Any, arguments: Sequence[Any], used: bool) -> Value:
        value: Value = self.program.model.fresh(number(0, UINT), list(arguments[:2]), True)
        return value

    def call_realloc(self, node: Any, arguments: Sequence[Any], used: bool) -> Value:
        program = self.program
        value, to = self.pointer(arguments[0])
        if value.null:
            return self.call_malloc(node, arguments[1:], used)
        program.kinds.want(to)
        if isinstance(to, Void):
            raise program.refuse(node, "`realloc` of a `void *`", "a pointer to the type that is there", True)
        inner, per = innermost(to)
        count = program.model.objects(to, [arguments[1]])
        program.resized.setdefault(program.model.maker_name(inner), inner)
        objects = count.code if per == 1 else Binary(UINT, "*", held(count.code, UNARY), Number(INT, per))
        resized = Call(Pointer(VOID), f"cbi_resize_{program.model.maker_name(inner)}", (value.code, objects))

        def fresh(type_: Optional[CType]) -> Node:
            if type_ is None or not program.model.alike(to, type_):
                raise program.refuse(node, "`realloc` to another type", "the type that is there", True)
            return resized
        return Value(Pointer(VOID), resized, pure=False, fresh=fresh)

    def call_free(self, node: Any, arguments: Sequence[Any], used: bool) -> Value:
        value = self.program.value(without_casts(arguments[0]))
        if isinstance(value.type, Int):
            value = self.program.converted(value, Pointer(VOID), True, node)
        return Value(VOID, Call(VOID, "cbi_free" if self.program.keeps_sizes else "free", (value.code,)), pure=False)

    def moved(self, node: Any, arguments: Sequence[Any], name: str, used: bool, what: str) -> Value:
        program = self.program
        to, left = self.pointer(arguments[0])
        from_, right = self.pointer(arguments[1])
        inner = innermost(self.known(node, name, left, right))[0]
        count = self.exact(inner, arguments[2], arguments[:2], node)
        name_ = program.model.maker_name(inner)
        program.movers.setdefault((what, name_), inner)
        if isinstance(inner, Struct):
            inner.copied = True
            program.model.copier(inner)
        return Value(to.type, Call(to.type, f"cbi_{what}_{name_}", (self.any_cells(to, inner), self.any_cells(from_, inner), count.code)), pure=False)

    def any_cells(self, pointer: Value, inner: CType) -> Node:
        """A pointer as what goes by types takes it: cells of pointers are all alike."""
        return Cast(pointer.type, "void **", Cast(pointer.type, "void *", pointer.code)) if is_address(inner) else pointer.code

    def call_memcpy(self, node: Any, arguments: Sequence[Any], used: bool) -> Value:
        return self.result(self.moved(node, arguments, "memcpy", used, "move"), arguments, used, node)

    def call_memmove(self, node: Any, arguments: Sequence[Any], used: bool) -> Value:
        return self.result(self.moved(node, arguments, "memmove", used, "move"), arguments, used, node)

    def call_bcopy(self, node: Any, arguments: Sequence[Any], used: bool) -> Value:
        return self.call_memmove(node, [arguments[1], arguments[0], arguments[2]], used)

    def result(self, value: Value, arguments: Sequence[Any], used: bool, node: Any) -> Value:
        """What a moving function gives: its first argument."""
        if not used:
            return value.as_type(VOID)
        if innermost(value.type.to)[0] == value.type.to and self.program.model.spell(value.type) != "void *" and not is_address(value.type.to):
            return value
        raise self.program.refuse(node, "the value of this call", "a statement of its own", True)

    def call_memset(self, node: Any, arguments: Sequence[Any], used: bool) -> Value:
        program = self.program
        to, type_ = self.pointer(arguments[0])
        self.known(node, "memset", type_)
        inner = innermost(type_)[0]
        value = program.value(arguments[1])
        objects = self.exact(inner, arguments[2], arguments[:1], node).code
        if like_char(inner):
            code: Node = Call(to.type, "cbi_fill_char", (to.code, program.converted(value, INT, True).code, objects))
        elif value.constant == 0:
            before: Optional[Node] = None
            place = to
            if used and not to.pure:
                before, place = program.keep(to)
            code = program.model.clear_cells(held(place.code, UNARY), inner, objects)
            if used:
                # What clears gives no value.
                return place._replace(code=sequence(place.type, before, code, place.code), pure=False, null=False)
        else:
            raise program.refuse(node, f"`memset` of a `{spelled(inner)}` to more than zero", "a loop that stores each value", True)
        return self.result(Value(to.type, retyped(to.type, code), pure=False), arguments, used, node)

    def call_bzero(self, node: Any, arguments: Sequence[Any], used: bool) -> Value:
        from pycparser import c_ast
        return self.call_memset(node, [arguments[0], c_ast.Constant("int", "0", node.coord), arguments[1]], used)

    def call_memcmp(self, node: Any, arguments: Sequence[Any], used: bool) -> Value:
        left, one = self.pointer(arguments[0])
        right, other = self.pointer(arguments[1])
        type_ = self.known(node, "memcmp", one, other)
        inner, per = innermost(type_)
        if not like_char(inner):
            raise self.program.refuse(node, f"`memcmp` of a `{spelled(inner)}`", "a comparison of each value", True)
        count = self.program.converted(self.program.value(arguments[2]), UINT, True, node)
        return Value(INT, Call(INT, "cbi_compare_char", (left.code, right.code, count.code)), pure=False)

    call_bcmp = call_memcmp

    def call_memchr(self, node: Any, arguments: Sequence[Any], used: bool) -> Optional[Value]:
        _, type_ = self.pointer(arguments[0])
        self.program.kinds.want(type_, CHAR)
        if not like_char(innermost(type_)[0]):
            raise self.program.refuse(node, "`memchr` of what isn't characters", "a loop that compares each element", True)
        return None

    def call_qsort(self, node: Any, arguments: Sequence[Any], used: bool) -> Value:
        return self.sorted(node, "qsort", arguments, self.program.sorters)

    def call_qsort_r(self, node: Any, arguments: Sequence[Any], used: bool) -> Value:
        return self.sorted(node, "qsort_r", arguments, self.program.sorters_with)

    def sorted(self, node: Any, name: str, arguments: Sequence[Any], table: Dict[str, CType]) -> Value:
        """A sort of elements of a type; with a fifth argument it is handed to each comparison."""
        program = self.program
        to, type_ = self.pointer(arguments[0])
        self.known(node, name, type_)
        size = program.value(arguments[2]).constant
        if size != size_of(type_):
            raise program.refuse(node, f"`{name}` with another size than that of an element", "`sizeof` of an element, and a pointer to such elements", True)
        inner, per = innermost(type_)
        if per != 1:
            raise program.refuse(node, f"`{name}` of arrays", "an array of structs", True)
        table.setdefault(program.model.maker_name(inner), inner)
        if isinstance(inner, Struct):
            program.model.copier(inner)
        compare = program.value(arguments[3])
        program.kinds.compares(compare.type, type_, type_, VOID)
        given = [self.any_cells(to, inner), program.converted(program.value(arguments[1]), UINT, True, node).code, compare.code]
        more = [program.converted(program.value(it), Pointer(VOID), True, node).code for it in arguments[4:5]]
        program.order_by(len(more))
        return Value(VOID, Call(VOID, f"cbi_sort{'_with' * len(more)}_{program.model.maker_name(inner)}", (*given, *more)), pure=False)

    def call_bsearch(self, node: Any, arguments: Sequence[Any], used: bool) -> Value:
        program = self.program
        wanted = program.value(arguments[0])
        key = program.converted(wanted, Pointer(VOID), True, node)
        base, type_ = self.pointer(arguments[1])
        self.known(node, "bsearch", type_)
        inner, per = innermost(type_)
        if per != 1 or program.value(arguments[3]).constant != size_of(type_):
            raise program.refuse(node, "`bsearch` with another size than that of an element", "the size of an element", True)
        program.searchers.setdefault(program.model.maker_name(inner), inner)
        program.order_by(0)
        compare = program.value(arguments[4])
        program.kinds.compares(compare.type, wanted.type.to if is_pointer(wanted.type) else VOID, type_)
        count = program.converted(program.value(arguments[2]), UINT, True, node)
        return Value(Pointer(VOID), Call(Pointer(VOID), f"cbi_search_{program.model.maker_name(inner)}", (key.code, self.any_cells(base, inner), count.code, compare.code)), pure=False)

    def of_characters(self, node: Any, name: str, argument: Any) -> Optional[Value]:
        """Refuses what is read or written byte by byte and has no characters; else the call is one of the prelude."""
        _, type_ = self.pointer(argument)
        self.program.kinds.want(type_, CHAR)
        if not like_char(innermost(type_)[0]):
            raise self.program.refuse(node, f"`{name}` of what isn't characters", "an array of characters, and each value from its bytes", True)
        return None

    def call_fread(self, node: Any, arguments: Sequence[Any], used: bool) -> Optional[Value]:
        return self.of_characters(node, "fread", arguments[0])

    def call_fwrite(self, node: Any, arguments: Sequence[Any], used: bool) -> Optional[Value]:
        return self.of_characters(node, "fwrite", arguments[0])

    def call_read(self, node: Any, arguments: Sequence[Any], used: bool) -> Optional[Value]:
        return self.of_characters(node, "read", arguments[1])

    def call_write(self, node: Any, arguments: Sequence[Any], used: bool) -> Optional[Value]:
        return self.of_characters(node, "write", arguments[1])

    def call_alloca(self, node: Any, arguments: Sequence[Any], used: bool) -> Value:
        self.program.liberties["memory of alloca is kept to the end of the run"] = None
        return self.call_malloc(node, arguments, used)
