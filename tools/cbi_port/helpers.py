"""What is added to a text: declarations on its first line, and functions behind its end."""
from dataclasses import replace
from typing import Any, List, Set

from cbi_port import Ported
from cbi_port.authors import authored, notes_in
from cbi_port.blocks import Definition, Evaluate, Head, Return, Statement, Template
from cbi_port.by_types import ByTypes
from cbi_port.dispatch import signature
from cbi_port.dump import dumped
from cbi_port.late import decided
from cbi_port.lines import Refusal
from cbi_port.names import named_early, named_records, names_of, words_of
from cbi_port.nodes import Call, Node, Number
from cbi_port.raw import files_of, wanted
from cbi_port.types import INT, VOID, Struct, Void, is_whole
from cbi_port.values_chosen import seen

def name_of(found: Any) -> str:
    """The name of a function."""
    return str(found.head.name if isinstance(found, Definition) else found.name)


class Helpers:
    """Joins the parts of a program."""

    def __init__(self, program: Any) -> None:
        self.program = program
        self.heads: List[Any] = []          # declarations of functions and variables, and structs
        self.tails: List[Any] = []          # definitions, and functions of the tool's own

    def add(self, found: Any) -> None:
        """Adds a function, which is declared first."""
        self.heads.append(found.head)
        self.tails.append(found)

    def ported(self) -> Ported:
        program, model, sheet = self.program, self.program.model, self.program.sheet
        program.in_prelude = True
        program.function = program.first
        program.last_place = len(program.tokens) - 1
        try:
            self.typed()
        except Refusal as refusal:
            program.tell(refusal)
        for found in map(program.dispatch.definition, program.dispatch.kinds.values()):
            self.add(found)
        self.settle(self.beginning())
        every = [symbol for symbol, _, _ in program.definitions + [it for it in program.waiting if it[0].unit == "prelude" or it[0].object is not None]]
        heads = [signature(model, symbol.text, symbol.type, symbol.type.parameters, [""] * len(symbol.type.parameters))
                 for symbol in every if symbol.emitted and symbol.text != "main"]
        records = [model.record(struct) for struct in program.structs] if not model.in_bytes else []
        raw = wanted(files_of(model), names_of(*sheet.every(), *self.tails, *heads, *program.globals, *records))
        rest = [Template(name, f"{it.head} {it.text}") for name, it in raw.items()]
        structs = named_records(records, words_of(*sheet.every(), *self.heads, *self.tails, *heads, *program.globals, *rest))
        raw_structs, raw_heads = ([Template(name, it.head) for name, it in raw.items() if it.is_struct == wants] for wants in (True, False))
        early = named_early([*sheet.every(), *self.tails])
        declared = [it for it in [*self.heads, *heads] if not isinstance(it, Head) or it.name in early]
        sheet.head = [*raw_structs, *structs, *raw_heads, *declared, *program.globals]
        sheet.tail += [*self.tails, *(Template(name, it.text) for name, it in raw.items() if it.text)]
        seen(program, sheet.tail, program.globals)
        text, lines = sheet.laid()
        added = sorted({name for name in map(name_of, sheet.tail) if name.startswith("cbi_")} | set(program.added))
        if any(name_of(it) == "main" for it in sheet.tail):
            added.append("main")
        counts = {name: count for name, count in program.counts.items() if name}
        return Ported(text.encode("latin-1"), lines, added, list(program.liberties), counts, authored(program.names.authors, text), notes_in(sheet.notes, program.tokens),
                      lambda: dumped(sheet.users(), program.tokens))

    def beginning(self) -> List[Statement]:
        """What a program does first; where `main` wants more, a function of that name is added that calls it."""
        program, model = self.program, self.program.model
        main = program.externals.get("main")
        init = program.first.out
        wrapped = main is not None and main.text != "main"
        if init:
            self.add(Definition(Head("cbi_init", "void", 0, ()), tuple(program.first.declarations()), tuple(init)))
        start: List[Statement] = [Evaluate(Call(VOID, "cbi_init", ()))] * bool(init)
        if wrapped:
            given, rows = model.main_arguments(self, len(main.type.parameters))
        if model.in_bytes:
            try:
                model.finish_memory(self)
            except Refusal as refusal:
                program.tell(refusal)
            start = [*model.start, *start]
        if wrapped:
            self.main_wrapper(main, [*start, *rows], given)
        return start

    def settle(self, start: List[Statement]) -> None:
        """Leaves nothing open in any tree."""
        sheet = self.program.sheet
        for trees in sheet.parts.values():
            trees[:] = [self.settled(it, start) for it in trees]
        sheet.apart[:] = [(file, self.settled(it, start)) for file, it in sheet.apart]
        sheet.tail[:] = [self.settled(it, start) for it in sheet.tail]
        self.tails = [self.settled(it, start) for it in self.tails]

    def settled(self, tree: Any, start: List[Statement]) -> Any:
        """A tree in which nothing is left open; the function that runs first does first what the program begins with."""
        found = decided(tree, self.program.later, self.all_copied)
        return replace(found, first=(*start, *found.first)) if isinstance(found, Definition) and found.begins else found

    def main_wrapper(self, main: Any, rows: List[Statement], given: List[Node]) -> None:
        """The function `main` of the text, which calls the program's own."""
        program = self.program
        call = Call(INT, "cbi_user_main", tuple(given), main)
        last: List[Statement]
        if isinstance(main.type.result, Void) or is_whole(main.type.result):
            last = [Evaluate(call), *[Evaluate(Call(VOID, "cbi_exit_now", (Number(INT, 0),)))] * program.exit_functions, Return(Number(INT, 0))]
        elif program.exit_functions:
            last = [Evaluate(Call(VOID, "cbi_exit_now", (call,))), Return(Number(INT, 0))]
        else:
            last = [Return(call)]
        self.tails.append(Definition(Head("main", "int", 0, ()), (), (*rows, *last)))

    # Functions that go by types.

    def typed(self) -> None:
        program, model = self.program, self.program.model
        made = ByTypes(program)
        if model.in_bytes:
            self.all_copied: Set[Any] = set()
            return
        for name, type_ in program.resized.items():
            program.makers.setdefault(name, type_)
            if isinstance(type_, Struct):
                model.copier(type_)
        done: Set[Struct] = set()
        while set(program.copied) - done:
            for struct in [it for it in program.copied if it not in done]:
                done.add(struct)
                self.add(model.copy_function(struct))
        self.all_copied = set(done) | {name for _, name in program.movers}
        for entry in program.later:
            if entry.maker and any(struct in self.all_copied for struct in entry.structs):
                program.makers.setdefault(entry.maker, program.makers_if[entry.maker])
        for name, type_ in program.makers.items():
            self.add(made.maker(name, type_))
        for name, type_ in program.resized.items():
            self.add(made.resizer(name, type_))
        for (_, name), type_ in program.movers.items():
            self.add(made.mover(name, type_))
        for name, type_ in program.sorters.items():
            self.add(made.sorter(name, type_, program.sort_call, False))
        for name, type_ in program.sorters_with.items():
            self.add(made.sorter(name, type_, program.sort_call_with, True))
        for name, type_ in program.searchers.items():
            self.add(made.searcher(name, type_))
        for struct, index, way in sorted(program.union_helpers, key=lambda it: (it[0].tag, it[1], it[2])):
            self.add(model.union_function(struct, index, way))
        cleared: Set[Struct] = set()
        while set(program.cleared) - cleared:
            for struct in [it for it in program.cleared if it not in cleared]:
                cleared.add(struct)
                self.add(model.clear_function(struct))
