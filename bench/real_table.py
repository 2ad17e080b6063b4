"""The table of real bugs."""
from typing import Any, Dict, List, Optional, Sequence

HEAD = ("Bug", "Shows as", "Lines, tokens, sites", "Inputs that fail", "Hunted: runs, failing", "`bugs`", "`lines`", "`rank`", "Ochiai over gcov", "Sanitizers", "Seconds")
LISTS = (("bugs", "`bugs`"), ("lines", "`lines`"), ("rank", "rows of `rank`"), ("ochiai", "lines by Ochiai over gcov"))
FIRST = 5   # of each list
MOST_RUNS, MOST_LINES = 100000, 16777216   # that a collection holds (docs/reference/FORMATS.md)


def place(value: Optional[float]) -> str:
    return "-" if value is None else f"{value:.0f}" if value == int(value) else f"{value:.1f}"


def places(found: Sequence[Any]) -> str:
    """`function / near / line of count`."""
    return f"{' / '.join(place(value) for value in found[:3])} of {found[3]}"


def share(failing: int, count: int) -> str:
    if not failing:
        return f"0 of {count:,}"
    per = 100 * failing / count
    return f"{failing:,} of {count:,} ({per:.0f} %)" if per >= 10 else f"{failing:,} of {count:,} ({per:.2g} %)"


def sanitizer(said: Sequence[Any]) -> str:
    stops, runs, message, where, same = said
    if not stops:
        return f"nothing in {runs} failing runs" if runs else "not asked"
    return f"{message}, {where} ({same} of {runs} failing runs)"


def row_of(result: Dict[str, Any]) -> List[str]:
    lists = result["places"]
    return [f"{result['name']} ({result['program']} {result['version']})", result["kind"], f"{result['lines']:,}, {result['tokens']:,}, {result['sites']:,}",
            share(result["failing"], result["made"]), f"{result['runs']:,}, {result['failed']:,}", places(lists["bugs"]), places(lists["lines"]), places(lists["rank"]),
            places(lists["ochiai"]) if "ochiai" in lists else "not asked", sanitizer(result["sanitizer"]), f"{result['seconds']:.0f}"]


def table_of(results: Sequence[Dict[str, Any]]) -> str:
    """The table in Markdown, and below it what each bug is and where its hunts point first."""
    notes = "\n".join(f"- **{result['name']}**: {result['what']}. Mended: {result['mended']}. {first_of(result)}" for result in results)
    return f"{parts_of(results)['real bugs']}\n\n{parts_of(results)['real counted']}\n\n{notes}\n"


def parts_of(results: Sequence[Dict[str, Any]]) -> Dict[str, str]:
    """What is made of docs/EVIDENCE.md, by its name there."""
    rows = [row_of(result) for result in results]
    meant = ("In the four lists: the place of the first row or line that is in the bug's function, of the first that is at most five lines from its line, and of the first at its line, of how many. "
             "Equals of Ochiai stand in an order by chance, and have its mean place. Inputs fail where gcc's build of 32 bits does, with AddressSanitizer unless the bug is a wrong output. "
             "Seconds are CPU seconds of the hunt, from the C files to the screen.")
    return {"real bugs": f"{measured_by(results)}\n\n{markdown(HEAD, rows)}\n\n{meant}", "real counted": summary_of(results), "real sizes": sizes_of(results)}


def markdown(head: Sequence[str], rows: Sequence[Sequence[str]]) -> str:
    return "\n".join("| " + " | ".join(cell.replace("|", "\\|") for cell in row) + " |" for row in [list(head), ["---"] * len(head), *rows])


def sizes_of(results: Sequence[Dict[str, Any]]) -> str:
    """What each program takes of the limits, and a thousand of its lines."""
    rows = []
    for result in {result["program"]: result for result in results}.values():
        lines = result["lines"] / 1000
        rows.append([f"{result['program']} {result['version']}", f"{result['lines']:,}", f"{result['tokens']:,}", f"{result['tokens'] / lines:,.0f}",
                     f"{result['sites']:,}{'' if not result.get('schemes') else ' of ' + result['schemes']}", f"{result['sites'] / lines:,.0f}",
                     f"{result['report'][0] / 1000:,.0f} KB", f"{result['report'][1]:,}", f"{min(MOST_RUNS, MOST_LINES // max(1, result['report'][1])):,}"])
    return markdown(("Program", "Lines", "Tokens (of 100,000)", "a thousand lines", "Sites (of 65,536)", "a thousand lines", "A run's report at rate 1", "its site lines", "Runs that a collection holds"), rows)


def summary_of(results: Sequence[Dict[str, Any]]) -> str:
    """For how many bugs each list has the function, a line near and the line itself among its first five."""
    rows = []
    for name, title in LISTS:
        asked = [result["places"][name] for result in results if name in result["places"]]
        counts = [sum(found[column] is not None and found[column] <= FIRST for found in asked) for column in range(3)]
        rows.append([title, *(f"{count} of {len(asked)}" for count in counts)])
    return markdown(("Among the first five", "the bug's function", "a line within five lines of the bug's", "the bug's line"), rows)


def measured_by(results: Sequence[Dict[str, Any]]) -> str:
    """Which executables made the results."""
    made = sorted({(result["cbi"], result["executable"][:8]) for result in results})
    return f"Measured by {' and '.join(f'cbi {version} (executable {digest})' for version, digest in made)}."


def first_of(result: Dict[str, Any]) -> str:
    """What the screen says first."""
    first = result["first"]
    hunted = f"Hunted: {result['runs']:,} runs, {result['failed']:,} of them failing."
    return f"{hunted} The first bug: `{first[3]}` at {first[0]}:{first[1]} in {first[2]}." if first else f"{hunted} No bug is shown."
