"""GNU C's `mode`: a whole number or a float of a size that is said by a word in place of its type."""
from typing import List, Sequence

from cbi_port.lines import Token
from cbi_port.neighbours import like

NUMBERS = {"QI": "char", "byte": "char", "HI": "short", "SI": "int", "word": "int", "pointer": "int", "DI": "long long"}
FLOATS = {"SF": "float", "DF": "double"}
WORDS = {"int", "unsigned", "signed", "char", "short", "long"}
BESIDE = {"typedef", "static", "extern", "const", "volatile", "register", "auto", "inline"}


def put(within: Sequence[Token], out: List[Token], behind: Sequence[Token]) -> bool:
    """Puts the type that an attribute says in place of the one that its declaration has; nothing where that has several names, or no type of numbers."""
    words = [it.text.strip("_") for it in within if it.kind == "name"]
    mode = next((it for it in words[words.index("mode") + 1:]), "")
    begin = len(out)
    while begin and out[begin - 1].text not in (";", "{", "}"):
        begin -= 1
    row = out[begin:]
    places = [at for at, it in enumerate(row) if it.text in WORDS or it.text in FLOATS.values()]
    names = [it for at, it in enumerate(row) if it.kind == "name" and at not in places and it.text not in BESIDE]
    if not places or len(names) > 1 or len(names) == 1 and row[-1] is not names[0] or not all(it.kind == "name" for it in row) or not behind or behind[0].text == "," and names:
        return False
    floats = any(row[at].text in FLOATS.values() for at in places)
    said = (FLOATS if floats else NUMBERS).get(mode)
    if said is None:
        return False
    signed = "" if floats else "unsigned " if any(row[at].text == "unsigned" for at in places) else "signed "
    new = [like(row[places[0]], word, "name") for word in (signed + said).split()]
    kept = [new if at == places[0] else [] if at in places else [it] for at, it in enumerate(row)]
    out[begin:] = [it for part in kept for it in part]
    return True
