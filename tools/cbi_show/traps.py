"""What each trap means: in the words of C, what most often causes it, and what to look at. Not proved.

The numbers and names are those of tools/cbi_show/files.py; sections are those of C99 (ISO/IEC 9899:1999).
"""
from typing import Dict, Iterator, NamedTuple

from cbi_show.files import TRAPS, Fault


class Trap(NamedTuple):
    """What C says of it, its typical cause, and what to look at."""
    in_c: str
    cause: str
    look: str


ABOUT: Dict[int, Trap] = {
    1: Trap("C99 6.5 paragraph 5: a signed result out of the range of its type is undefined behaviour.", "A sum, product or negation of large numbers, or INT_MIN / -1.",
            "Look at sums, products and negations of numbers that may be great; `unsigned` wraps in place of this."),
    2: Trap("C99 6.5.5 paragraph 5: `/` and `%` by zero are undefined behaviour.", "A count of nothing, an empty list, or a number that was read.",
            "Look at divisors that may be 0: counts of nothing, ends of input."),
    3: Trap("C99 6.5.7 paragraphs 3 and 4: such a shift is undefined behaviour.", "A shift count that is calculated, or `1 << 31` as an int.",
            "Look at shift counts that are calculated; shift an `unsigned`."),
    4: Trap("C99 6.7.8 paragraph 10 and 7.20.3.3 paragraph 2: the value of such an object is indeterminate; 6.9.1 paragraph 12: so is what a function gives that ends without return.",
            "A variable that one branch alone sets, memory of malloc, or an end of input that was not checked.",
            "Look at variables that are declared without a value, at cells of malloc, and at functions that end without return."),
    5: Trap("C99 6.5 paragraph 7: an object is accessed by its own type alone.", "A cast of a pointer, or memory that is used for two things.",
            "Look at memory that is used with two types: a char that is read as an int, or a void * that came from elsewhere."),
    6: Trap("C99 6.5.6 paragraph 8: a pointer outside its array (or used one past its end) is undefined behaviour; `a[i]` is `*(a + i)`.",
            "A loop that goes one too far, an array too short for its input, or a string without its 0.",
            "Look at loops that go one too far, and at arrays that are too short for what is read."),
    7: Trap("C99 6.2.4 paragraph 2: an object may not be used after its lifetime, which free (7.20.3.2) or the end of its block ends.",
            "A second pointer to what was freed, or the address of a local variable that was returned.",
            "Look at pointers that are kept after free, and at addresses of local variables that are returned."),
    8: Trap("C99 6.5.3.2 paragraph 4: `*p`, `p->m` and `p[i]` of a null pointer are undefined behaviour.", "The result of a search or of malloc that nobody checked, or a link that was never set.",
            "Look at calls whose result may be NULL: malloc, and searches that find nothing."),
    9: Trap("C99 6.4.5 paragraph 6: to change a string literal is undefined behaviour.", "A `char *` to a literal that is given to a function that changes it.",
            "Copy the string into an array before it is changed."),
    10: Trap("C99 7.20.3.2 paragraph 2: free takes what malloc and its like gave, once, or NULL.", "Two owners of one block, or a pointer that was moved on.",
             "Look at free that is called twice, or of a pointer that was moved or doesn't come from malloc."),
    11: Trap("C99 6.5.8 paragraph 5 and 6.5.6 paragraph 9: `<` and `-` take pointers into one array.", "Two buffers whose ends are taken for one another.",
             "Compare places within one array alone."),
    12: Trap("C99 5.2.4.1 promises no depth of calls; here it is 512, and a compiled program ends by a signal at some depth.", "Recursion without an end, or one level for each element of a long list.",
             "Look at recursion that doesn't end, and at large arrays in functions that call themselves."),
    13: Trap("C99 7.2.1.1: assert writes its text, and calls abort.", "What the assertion says was not so.", "The assertion says what was meant to hold."),
    14: Trap("C99 7.20.4.1: abort ends the program abnormally.", "The program found something wrong by itself.", "The program gave up by itself: look for its calls of abort."),
    99: Trap("C says nothing of it.", "A program file that was changed, or written by something else.", "Program files that cbi transform writes never come to this."),
}


def look_at(number: int) -> str:
    return ABOUT[number].look if number in ABOUT else ""


def explained(word: str) -> Iterator[str]:
    """What `cbi-explain trap N` says."""
    number = int(word) if word.isdigit() and word.isascii() else 0
    if number not in TRAPS:
        raise Fault(f"there is no trap {word}: traps are {min(TRAPS)} to {sorted(TRAPS)[-2]}, and {max(TRAPS)}")
    (name, meaning), trap = TRAPS[number], ABOUT[number]
    yield f"Trap {number}, {name}: {meaning}."
    yield f"In C: {trap.in_c}"
    yield f"Typical cause: {trap.cause}"
    yield trap.look


def listed() -> Iterator[str]:
    """All of them, a line each."""
    yield from (f"trap {number}, {name}: {meaning}" for number, (name, meaning) in TRAPS.items())
