"""Memory as bytes whose bounds are looked at: room that is no object's lies between objects, and a bit for each byte says whether it is one of a live object.

An access to any other byte is trap 6, and trap 7 where the object's life has ended: a freed block, or what a function kept that has returned.
"""
from typing import Any, Dict, List, Optional, Tuple

from cbi_port.blocks import Declarator, Declare, Evaluate, Statement
from cbi_port.byte_objects import BASE, FRAME, moved
from cbi_port.bytes import Bytes, table
from cbi_port.nodes import Assign, Binary, Call, Group, Index, Name, Node, Number, decimal
from cbi_port.types import INT, UINT, VOID, Pointer
from cbi_port.values import word

GAP = 16            # bytes that are no object's, behind each one
STRING_GAP = 4      # and behind a string
SMALL = 96          # bytes of an object of a function whose bits are stored as words


class BoundedBytes(Bytes):
    """The model of memory in which each access is held to the objects' bounds."""

    bounded = True
    words = 896000      # with the bits of its bytes as many cells as all globals may have
    frames = 32         # a word of bits is of one function alone

    def __init__(self, program: Any) -> None:
        super().__init__(program)
        self.placed: List[Tuple[int, int]] = []

    # What lives as long as the program.

    def static_room(self, size: int, align: int) -> int:
        at = super().static_room(size, align)
        self.placed.append((at, max(size, 1)))
        self.image.extend(bytes(STRING_GAP if align == 1 else GAP))
        return at

    # What a function has.

    def frame_room(self, size: int, align: int = 4) -> Node:
        body = self.program.function
        at = super().frame_room(size, align)
        if body is not self.program.first:
            body.objects.append((at, max(size, 1)))
            body.frame += GAP
        return at

    def beside_room(self, size: int) -> Node:
        """What statements keep beside lies together, without gaps."""
        body, size = self.program.function, -(-max(size, 1) // 4) * 4
        if body is self.program.first:
            return super().beside_room(size)
        if body.beside is None or body.objects[-1][0] != body.beside:
            body.beside = self.frame_room(size)
            return body.beside
        begin = body.frame - GAP
        body.objects[-1] = (body.beside, body.objects[-1][1] + size)
        body.frame += size
        return moved(FRAME, begin)

    def entry(self, body: Any) -> List[Statement]:
        """Says of the objects of a function that they live: of small ones by the words of their bits, of others by a call."""
        words: Dict[int, int] = {}
        calls: List[Statement] = []
        for at, size in body.objects:
            found = self.offset_of(at)
            if found is None or size > SMALL:
                calls.append(Evaluate(Call(VOID, "cbi_begin_life", (at, word(size)))))
                continue
            for byte in range(found, found + size):
                words[byte // 32] = words.get(byte // 32, 0) | 1 << byte % 32
        live, begin = Name(Pointer(UINT), "cbi_live"), Binary(UINT, ">>", FRAME, Number(INT, 5))
        rows = [Assign(UINT, Index(UINT, live, Binary(UINT, "+", Group(UINT, begin), word(index)) if index else begin), word(bits)) for index, bits in sorted(words.items())]
        return [*super().entry(body), *map(Evaluate, rows), *calls]

    def offset_of(self, at: Node) -> Optional[int]:
        """Where in a function's room an object lies; none where that is only known as it runs."""
        if at == FRAME:
            return 0
        return decimal(at.right) if isinstance(at, Binary) and at.sign == "+" and at.left == FRAME else None

    # The whole.

    def finish_memory(self, helpers: Any) -> None:
        data = len(self.image.rstrip(b"\0"))
        super().finish_memory(helpers)
        count = -(-data // 32)
        words = [0] * count
        behind: List[int] = []
        for at, size in self.placed:
            if at + size > BASE + 32 * count:
                behind += [at, size]
                continue
            for byte in range(at - BASE, at - BASE + size):
                words[byte // 32] |= 1 << byte % 32
        helpers.heads.insert(0, Declare(Declarator(UINT, "unsigned", 0, "cbi_live", (self.words // 8,))))
        if words:
            helpers.heads.insert(1, table("cbi_image_live", words))
            self.begin("cbi_begin_image", "cbi_image_live", len(words))
        if behind:
            helpers.heads.insert(1, table("cbi_objects", behind))
            self.begin("cbi_begin_objects", "cbi_objects", len(behind))
