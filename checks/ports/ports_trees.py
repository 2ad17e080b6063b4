"""Looks at the typed tree of tools/cbi_port: what is written of it pycparser reads as that tree, its types are those that gcc finds, and `cbi-port --dump-typed` shows it."""
import os
import random
import re
import subprocess
import sys

from looking import TOOLS, Case

sys.path.insert(0, TOOLS)
import cbi_port  # noqa: E402
from cbi_port import blocks, builds, late, nodes  # noqa: E402
from cbi_port.names import names_of  # noqa: E402
from cbi_port.types import INT  # noqa: E402
from cbi_port.writer import definition, plain, statement, text_of, written  # noqa: E402


def builds_32():
    """Whether gcc builds for 32 bits here, as the porter's `long` and pointers are."""
    done = subprocess.run(["gcc", "-m32", "-x", "c", "-o", os.devnull, "-"], input=b"#include <stdio.h>\nint main(void){return 0;}\n", stdout=subprocess.PIPE, stderr=subprocess.PIPE, check=False)
    return done.returncode == 0


BUILDS_32 = builds_32()


def shape(node):
    """What a node of the typed tree says: its operators, names and numbers, without parentheses and conversions that the text has no word for."""
    if isinstance(node, (nodes.Group, nodes.Converted)):
        return shape(node.inner if isinstance(node, nodes.Group) else node.operand)
    if isinstance(node, nodes.Name):
        return node.name
    if isinstance(node, nodes.Number):
        if node.value == nodes.LEAST_INT:
            return ("-", ("-", "2147483647"), "1")
        return ("-", str(-node.value)) if node.value < 0 else f"{node.value}{'u' * node.unsigned}"
    if isinstance(node, nodes.Index):
        return ("[]", shape(node.base), shape(node.index))
    sign = {nodes.Cast: "cast", nodes.Behind: "behind", nodes.Choice: "?", nodes.Comma: ",", nodes.Call: "call", nodes.Part: "."}.get(type(node)) or node.sign
    word = [node.word] if isinstance(node, nodes.Cast) else [node.name] if isinstance(node, nodes.Call) else [node.name, node.arrow] if isinstance(node, nodes.Part) else [
        node.sign] if isinstance(node, nodes.Behind) else []
    return (sign, *word, *map(shape, nodes.children(node)))


def shape_read(tree):
    """The same of a tree that pycparser has read."""
    what = type(tree).__name__
    if what in ("ID", "Constant"):
        return tree.name if what == "ID" else tree.value
    if what == "UnaryOp":
        return ("behind", tree.op[1:], shape_read(tree.expr)) if tree.op[0] == "p" else (tree.op, shape_read(tree.expr))
    if what == "Cast":
        return ("cast", tree.to_type.type.type.names[0], shape_read(tree.expr))
    if what == "FuncCall":
        return ("call", tree.name.name, *map(shape_read, tree.args.exprs if tree.args else []))
    if what == "StructRef":
        return (".", tree.field.name, tree.type == "->", shape_read(tree.name))
    sign = {"ArrayRef": "[]", "TernaryOp": "?", "ExprList": ","}.get(what) or tree.op
    return (sign, *[shape_read(child) for _, child in tree.children()])


def shape_of(it):
    """What a statement of the typed tree says; blocks have a shape, and what has no text has none."""
    if isinstance(it, blocks.Evaluate):
        return shape(it.code)
    if isinstance(it, blocks.Declare):
        return ("Decl", it.object.name, it.object.stars, it.object.bounds, None if it.begin is None else shape(it.begin))
    parts = {blocks.If: ("condition", "then", "other"), blocks.While: ("condition", "body"), blocks.Do: ("condition", "body"), blocks.For: ("first", "condition", "step", "body"),
             blocks.Return: ("code",)}.get(type(it), ())
    inner = [getattr(it, name) for name in parts]
    rows = [None if part is None or isinstance(part, blocks.Empty) else shape(part) if isinstance(part, nodes.Node) else shape_of(part) for part in inner]
    return (type(it).__name__, *rows, *map(shape_of, getattr(it, "items", ())))


def shape_of_read(tree):
    """The same of a statement that pycparser has read."""
    what = type(tree).__name__
    if what == "DeclList":
        return shape_of_read(tree.decls[0])
    if what == "Decl":
        stars, bounds, inner = 0, (), tree.type
        while type(inner).__name__ != "TypeDecl":
            stars += type(inner).__name__ == "PtrDecl"
            bounds += (int(inner.dim.value),) if type(inner).__name__ == "ArrayDecl" else ()
            inner = inner.type
        return ("Decl", tree.name, stars, bounds, None if tree.init is None else shape_read(tree.init))
    names = {"If": ("cond", "iftrue", "iffalse"), "While": ("cond", "stmt"), "DoWhile": ("cond", "stmt"), "For": ("init", "cond", "next", "stmt"), "Return": ("expr",),
             "Compound": (), "Break": (), "Continue": (), "EmptyStatement": ()}
    if what not in names:
        return shape_read(tree)
    rows = [None if part is None or type(part).__name__ == "EmptyStatement" else shape_of_read(part) for part in (getattr(tree, name) for name in names[what])]
    word = {"DoWhile": "Do", "Compound": "Block", "EmptyStatement": "Empty"}.get(what, what)
    return (word, *rows, *map(shape_of_read, (tree.block_items or []) if what == "Compound" else []))


def names_read(tree):
    """The names in what pycparser has read, but those of members and of what a function has as its types."""
    found = {tree.name} if type(tree).__name__ in ("ID", "Decl", "Struct") else set()
    return found.union(*(names_read(child) for name, child in tree.children() if name != "field"))


class Trees(Case):
    """The typed tree, and what is written of it."""

    def made(self, chance, depth):
        """An expression by chance."""
        def part():
            return self.made(chance, depth - 1)
        name = nodes.Name(INT, chance.choice("abc"))
        if depth == 0:
            return chance.choice([name, nodes.Number(INT, chance.choice([0, 7, -7, -(1 << 31)])), nodes.Number(INT, 3000000000, True)])
        return chance.choice([
            lambda: nodes.Binary(INT, chance.choice(sorted(nodes.LEVELS)), part(), part()), lambda: nodes.Binary(INT, chance.choice("+-*/"), part(), part()),
            lambda: nodes.Unary(INT, chance.choice(["-", "!", "~", "*"]), part()), lambda: nodes.Unary(INT, chance.choice(["--", "++", "&"]), name),
            lambda: nodes.Behind(INT, chance.choice(["--", "++"]), name), lambda: nodes.Cast(INT, chance.choice(["int", "char"]), part()), lambda: nodes.Converted(INT, part()),
            lambda: nodes.Choice(INT, part(), part(), part()), lambda: nodes.Assign(INT, name, part(), chance.choice(["=", "+=", "<<="])), lambda: nodes.Comma(INT, (part(), part())),
            lambda: nodes.Call(INT, "f", (part(), part())), lambda: nodes.Index(INT, part(), part()), lambda: nodes.Part(INT, nodes.Group(INT, part()), "m", chance.random() < 0.5)])()

    def statement(self, chance, depth):
        """A statement by chance, within a loop."""
        def part():
            return self.statement(chance, depth - 1)

        def code():
            return self.made(chance, chance.randint(0, 2))
        if depth == 0:
            return chance.choice([lambda: blocks.Evaluate(code()), blocks.Empty, lambda: blocks.Return(code()), blocks.Return, blocks.Break, blocks.Continue])()
        return chance.choice([
            lambda: blocks.Block(tuple(part() for _ in range(chance.randint(0, 3)))), lambda: blocks.If(code(), blocks.Block((part(),)), part()), lambda: blocks.If(code(), part()),
            lambda: blocks.While(code(), part()), lambda: blocks.Do(blocks.Block((part(), part())), code()), lambda: blocks.For(blocks.Empty(), None, code(), part()),
            lambda: blocks.For(blocks.Declare(blocks.Declarator(INT, "int", 0, "d"), nodes.Number(INT, 1)), code(), None, part()),
            lambda: blocks.Block((blocks.Declare(blocks.Declarator(INT, "struct s", 2, "e", (3, 4))), part()))])()

    def test_what_is_written_of_statements_is_the_tree(self):
        """Functions of statements by chance, pycparser reads as these; and the pass that finds names finds those that are read."""
        from pycparser import c_parser
        chance, parser = random.Random(11), c_parser.CParser()
        parameters = tuple(blocks.Declarator(INT, "int", 0, name) for name in "abc")
        for at in range(300):
            items = (blocks.While(nodes.Number(INT, 1), blocks.Block(tuple(self.statement(chance, chance.randint(0, 4)) for _ in range(3)))),)
            tree = blocks.Definition(blocks.Head(f"g_{at}", "struct t", 1, parameters), (), items, (blocks.Return(nodes.Name(INT, "a")),))
            read = parser.parse(plain(definition(tree))).ext[0]
            self.assertEqual([shape_of_read(it) for it in read.body.block_items], [*map(shape_of, items), ("Return", "a")], plain(definition(tree)))
            self.assertEqual(names_of(tree) - {""}, names_read(read))

    def test_what_was_left_open_is_decided(self):
        """What a function does where it returns goes by whether it has objects in memory, and what begins at zero by whether it is copied."""
        name, zero, more = (nodes.Name(INT, it) for it in ("a", "zero", "more"))
        leaving = blocks.Leaving(blocks.Return(name), blocks.Block((blocks.Evaluate(zero), blocks.Return(name))), 7)
        tree = blocks.Definition(blocks.Head("f", "int", 0, ()), (), (blocks.If(name, leaving),))
        self.assertEqual([plain(definition(late.left(tree, framed))) for framed in (False, True)],
                         ["int f(void) { if (a) return a; }", "int f(void) { if (a) { zero; return a; } }"])
        self.assertIn(7, definition(late.left(tree, True)))
        choices = [late.Choice(["s"], nodes.Later(INT, 1), more), late.Choice(["t"], zero, nodes.Null(INT)), late.Choice(["t"], blocks.Evaluate(zero), None)]
        rows = blocks.Block((blocks.Evaluate(nodes.Later(INT, 0, 5)), blocks.Declare(blocks.Declarator(INT, "int", 0, "x"), None, blocks.Perhaps(2))))
        due = {"": "{ more; int x; }", "s": "{ NULL; int x; }", "t": "{ more; int x; zero; }", "st": "{ zero; int x; zero; }"}
        for copied, text in due.items():
            self.assertEqual(plain(statement(late.decided(rows, choices, set(copied)))), text)
        self.assertEqual(statement(late.decided(rows, choices, {"s"}))[2], 5)

    def test_what_is_written_is_the_tree(self):
        """What is written of 2,000 trees, pycparser reads as these: parentheses stand where C wants them, and signs are kept apart."""
        from pycparser import c_parser
        chance, parser = random.Random(7), c_parser.CParser()
        for _ in range(20):
            trees = [self.made(chance, chance.randint(1, 5)) for _ in range(100)]
            read = parser.parse("void g(void) { " + " ".join(f"h({text_of(nodes.Group(INT, it))});" for it in trees) + " }")
            for tree, statement in zip(trees, read.ext[0].body.block_items):
                self.assertEqual(shape_read(statement.args.exprs[0]), shape(tree), text_of(tree))

    # Functions of each type, and operators; `u` is an unsigned char, `b` a bit-field of five bits.
    KINDS = [("c", "char"), ("u", "unsigned char"), ("h", "short"), ("i", "int"), ("n", "unsigned"), ("l", "long"), ("m", "unsigned long"), ("q", "long long"), ("w", "unsigned long long"),
             ("f", "float"), ("d", "double")]
    SIGNS = ["+", "-", "*", "/", "<", "==", "&&", "%", "<<", "&", "^", ">>", "|"]

    def test_types_are_those_of_gcc(self):
        """Of each operator between each two kinds of numbers the tree's type is the one that gcc finds by `_Generic`, and each stands at its line."""
        if not BUILDS_32:
            self.skipTest("gcc builds nothing for 32 bits here")
        whole = [it for it, name in self.KINDS if name not in ("float", "double")]
        rows = [f"{left}() {sign} {right}()" for sign in self.SIGNS for left, _ in self.KINDS for right, _ in self.KINDS
                if self.SIGNS.index(sign) < 7 or left in whole and right in whole]
        rows += [f"{sign}{it}()" for sign in "-~" for it, _ in self.KINDS if sign == "-" or it in whole] + [f"({name}){it}()" for it, _ in self.KINDS for _, name in self.KINDS]
        head = "#include <stdio.h>\n" + "".join(f"static {name} {it}(void) {{ return ({name})getchar(); }}\n" for it, name in self.KINDS)
        names = ", ".join(f'{name}: "{name}"' for _, name in self.KINDS)
        asked = self.write("asked.c", head + "int main(void)\n{\n" + "".join(f'    puts(_Generic(({row}), {names}));\n' for row in rows) + "    return 0;\n}\n")
        built = builds.compiled([asked], [], self.room, "asked", [])
        due = subprocess.run([built], stdout=subprocess.PIPE, check=True).stdout.decode().split("\n")[:-1]
        ported = self.write("ported.c", head + "int main(void)\n{\n" + "".join(f"    {row};\n" for row in rows) + "    return 0;\n}\n")
        for memory in ("cells", "flat"):
            tree = list(cbi_port.port([ported], memory=memory).typed())
            found = {}
            for row, inner in zip(tree, tree[1:]):
                place = re.fullmatch(r"  Evaluate @ .*:(\d+)", row)
                if place:
                    found[int(place[1])] = re.sub(r" @ .*", "", inner).partition(" : ")[2]
            begin = head.count("\n") + 3
            self.assertEqual([found.get(begin + at) for at in range(len(rows))], due, memory)

    def test_a_parameter_that_stays_is_not_stored_again(self):
        """A function that calls itself last begins again: of its parameters those alone get values that change."""
        from pycparser import c_parser
        name = self.write("a.c", "static int f(int n, int a, unsigned b)\n{\n    if (n == 0) return a + (int)b;\n    return f(n - 1, a, b + 1u);\n}\nint main(void)\n{\n    return f(3, 4, 5u);\n}\n")
        text = cbi_port.port([name], memory="cells").text.decode()
        stack, stored = [c_parser.CParser().parse(text)], []
        while stack:
            node = stack.pop()
            if type(node).__name__ == "Assignment" and type(node.lvalue).__name__ == "ID":
                stored.append(node.lvalue.name)
            stack.extend(child for _, child in node.children())
        self.assertEqual(sorted(stored), ["b", "n"])

    def test_dump_typed(self):
        """The script writes the typed tree in place of the text: a node a line, with its type and place, further in than the one that has it."""
        self.write("a.c", "struct s { char c; int n; };\nint main(void)\n{\n    struct s x, *p = &x;\n    x.n = 5;\n    return -p->n + 1;\n}\n")
        out, err = self.call("cbi-port", "--dump-typed", "--memory", "cells", "a.c")
        self.assertIn("ported: ", err)
        due = ["Definition @ a.c:2", "  Head main int", "  Declare @ a.c:4", "    Declarator struct s x : struct s", "  Declare @ a.c:4", "    Declarator struct s p : struct s *",
               "    Unary & : struct s *", "      Name x : struct s @ a.c:4", "  Evaluate @ a.c:5", "    Assign = : int", "      Part n at 4 : int", "        Name x : struct s @ a.c:5",
               "      Number 5 : int @ a.c:5", "  Return @ a.c:6", "    Binary + : int @ a.c:6", "      Unary - : int", "        Part n -> at 4 : int", "          Name p : struct s * @ a.c:6",
               "      Number 1 : int @ a.c:6"]
        self.assertEqual(out.split("\n")[:-1], due)
        out, _ = self.call("cbi-port", "--dump-typed", "--memory", "bytes", "a.c")
        self.assertIn("        Call cbi_load_word : int\n", out)

    def test_places_are_no_part_of_what_a_tree_says(self):
        """Two trees that stand at different places are one where they do the same; what is written has marks of the places."""
        here, there = (nodes.Binary(INT, "+", nodes.Name(INT, "a", at), nodes.Number(INT, 1)) for at in (4, 9))
        self.assertEqual(here, there)
        self.assertEqual(written(here), [4, "a", " ", "+ ", "1"])
        self.assertNotEqual(here, nodes.Binary(INT, "-", nodes.Name(INT, "a", 4), nodes.Number(INT, 1)))
