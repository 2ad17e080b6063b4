#!/usr/bin/env python3
"""Looks at the documents: each link in them leads to a file that is there and to a heading of it, each page of docs/ that anything names is there, a part that a script
makes stands on one page, and what people wrote has no more words than house/words allows.

    checks/test_documents.py
"""
import os
import re
import subprocess
import sys
from typing import Dict, Iterator, List, Set

ROOT = os.path.dirname(os.path.dirname(os.path.realpath(__file__)))
LINK = re.compile(r"\]\(([^)\s]+)\)")
# A page of docs/ as scripts, comments and documents name it.
NAMED = re.compile(r"\bdocs/(?:reference/)?[A-Z]+\.md\b")
MADE = re.compile(r"<!-- made: (.*?) -->")
LOOKED_AT = (".md", ".py", ".rt", ".antt", ".edit", ".txt", ".1")


def files(folder: str) -> Iterator[str]:
    for at, folders, names in os.walk(os.path.join(ROOT, folder)):
        folders[:] = sorted(name for name in folders if name not in ("out", ".git", "__pycache__"))
        yield from (os.path.join(at, name) for name in sorted(names))


def read(file: str) -> str:
    with open(file, encoding="utf-8", errors="replace") as it:
        return it.read()


def pages() -> List[str]:
    """The documents: at the top, in docs/, and those beside what they speak of."""
    found = [os.path.join(ROOT, name) for name in sorted(os.listdir(ROOT)) if name.endswith(".md")]
    return found + [file for folder in ("docs", "examples", "bench", "crates") for file in files(folder) if file.endswith(".md")]


def headings(text: str) -> Set[str]:
    """The anchors of a page, as forges make them of its headings outside of code."""
    rows = re.sub(r"(?ms)^```.*?^```", "", text).splitlines()
    found = (re.match(r"#+ (.*)", row) for row in rows)
    return {re.sub(r"[^\w\- ]", "", it[1].strip().lower()).replace(" ", "-") for it in found if it}


def broken_links(page: str) -> Iterator[str]:
    for link in LINK.findall(read(page)):
        if re.match(r"[a-z]+:", link):
            continue
        name, _, anchor = link.partition("#")
        file = os.path.normpath(os.path.join(os.path.dirname(page), name)) if name else page
        if not os.path.exists(file):
            yield f"{os.path.relpath(page, ROOT)}: {link} leads to nothing"
        elif anchor and file.endswith(".md") and anchor not in headings(read(file)):
            yield f"{os.path.relpath(page, ROOT)}: {link} has no such heading"


def missing_pages() -> Iterator[str]:
    names = [os.path.join(ROOT, name) for name in sorted(os.listdir(ROOT)) if os.path.isfile(os.path.join(ROOT, name))]
    every = names + [file for folder in ("docs", "tools", "checks", "bench", "house", "crates", "examples") for file in files(folder)]
    for file in every:
        if file.endswith(LOOKED_AT) or "." not in os.path.basename(file):
            for name in sorted(set(NAMED.findall(read(file)))):
                if not os.path.exists(os.path.join(ROOT, name)):
                    yield f"{os.path.relpath(file, ROOT)}: there is no {name}"


def parts_made_twice() -> Iterator[str]:
    """A script fills each part in wherever it stands, so one that stands twice says the same thing twice."""
    first: Dict[str, str] = {}
    for page in pages():
        name = os.path.relpath(page, ROOT)
        for part in MADE.findall(read(page)):
            if part in first:
                yield f"{name}: {first[part]} has the part {part} already"
            first.setdefault(part, name)


def main() -> int:
    found = [line for page in pages() for line in broken_links(page)] + list(missing_pages()) + list(parts_made_twice())
    for line in found:
        print(line)
    print(f"documents: {len(pages())} pages, {len(found)} links, names or parts that are wrong", flush=True)
    too_long = subprocess.run([sys.executable, os.path.join(ROOT, "house", "words"), "--check"], check=False).returncode
    return 1 if found or too_long else 0


if __name__ == "__main__":
    sys.exit(main())
