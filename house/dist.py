"""The released executable: dist/cbi.xz and what dist/MANIFEST says of it. Python 3.8 and its standard library; git where there is a checkout.

    python3 house/dist.py unpack [FILE]   checks the sums, unpacks the executable to FILE or dist/out/cbi, writes that path to out and what it is to err
    python3 house/dist.py own [FILE]      the same, but only where crates/ is what the executable was built from

Status 0: done. 1: dist/ is damaged, or nothing can be unpacked. 3: there is nothing to take: no release, another kind of machine, or (own) other crates.

dist/MANIFEST has a line for each of these words, in this order; lines that begin with # are comments:

    version     the release, as tools/cbi_show/files.py and CHANGELOG.md have it
    commit      the commit that the gate proved and built
    kit         the line of `rt version`
    target      the machine: x86_64-unknown-linux-gnu
    executable  the SHA-256 of the executable
    size        its bytes
    crates      the SHA-256 of what `git ls-tree -r COMMIT crates crates.txt` writes: mode, object and path of each file, and so of every byte of the sources
    gate        the last line of `rt ci`
"""
import hashlib
import lzma
import os
import platform
import re
import subprocess
import sys
import tempfile
from typing import List, NamedTuple, Optional

TARGET = "x86_64-unknown-linux-gnu"
SOURCES = ("crates", "crates.txt")
MOST_BYTES = 64 * 1024 * 1024
PATTERNS = {
    "version": r"\d+\.\d+\.\d+",
    "commit": r"[0-9a-f]{40}",
    "kit": r"\S.*",
    "target": r"[a-z0-9_-]+",
    "executable": r"[0-9a-f]{64}",
    "size": r"[1-9]\d{0,7}",
    "crates": r"[0-9a-f]{64}",
    "gate": r"[1-9]\d* passed, 0 failed",
}


class Damaged(Exception):
    """dist/ isn't what a release left."""


class Manifest(NamedTuple):
    """What dist/MANIFEST says; each is a word of its."""
    version: str
    commit: str
    kit: str
    target: str
    executable: str
    size: str
    crates: str
    gate: str

    def text(self) -> str:
        rows = [f"{word} {value}\n" for word, value in self._asdict().items()]
        return "# The released executable, dist/cbi.xz. house/release writes this page, house/dist.py says what its words mean.\n" + "".join(rows)


def parse(text: str) -> Manifest:
    """The manifest that a text spells; each word once, in order, and nothing else."""
    rows = [row for row in text.splitlines() if not row.startswith("#")]
    if [row.partition(" ")[0] for row in rows] != list(PATTERNS):
        raise Damaged(f"dist/MANIFEST doesn't have the lines {', '.join(PATTERNS)}, in this order")
    values = [row.partition(" ")[2] for row in rows]
    for word, value in zip(PATTERNS, values):
        if not re.fullmatch(PATTERNS[word], value):
            raise Damaged(f"dist/MANIFEST: {word} can't be '{value}'")
    return Manifest(*values)


class Dist:
    """The release in a checkout, whose top this is."""

    def __init__(self, top: str):
        self.top = top
        self.folder = os.path.join(top, "dist")
        self.packed = os.path.join(self.folder, "cbi.xz")

    def manifest(self) -> Optional[Manifest]:
        """What dist/MANIFEST says, or None where nothing was released."""
        path = os.path.join(self.folder, "MANIFEST")
        if not os.path.exists(path):
            if os.path.exists(self.packed):
                raise Damaged("dist/ has cbi.xz and no MANIFEST")
            return None
        try:
            with open(path, encoding="utf-8") as file:
                return parse(file.read())
        except (OSError, UnicodeDecodeError) as error:
            raise Damaged(f"dist/MANIFEST can't be read: {error}") from error

    def executable(self, manifest: Manifest) -> bytes:
        """The executable, whose size and sum are the manifest's."""
        try:
            with open(self.packed, "rb") as file:
                packed = file.read(MOST_BYTES)
            unpacker = lzma.LZMADecompressor(lzma.FORMAT_XZ)
            data = unpacker.decompress(packed, int(manifest.size) + 1)
        except (OSError, lzma.LZMAError) as error:
            raise Damaged(f"dist/cbi.xz can't be unpacked: {error}") from error
        if len(data) != int(manifest.size) or hashlib.sha256(data).hexdigest() != manifest.executable:
            raise Damaged(f"dist/cbi.xz isn't the executable of dist/MANIFEST, whose SHA-256 is {manifest.executable}")
        return data

    def git(self, *words: str) -> Optional[str]:
        """What git says here, or None where it says nothing: no git, no checkout, no such commit."""
        try:
            done = subprocess.run(["git", "-C", self.top, *words], stdin=subprocess.DEVNULL, stdout=subprocess.PIPE, stderr=subprocess.DEVNULL, check=False)
        except OSError:
            return None
        return None if done.returncode else done.stdout.decode("utf-8", "surrogateescape")

    def is_checkout(self) -> bool:
        """Whether this folder is the top of a checkout of git, and not a copy inside another one."""
        top = self.git("rev-parse", "--show-toplevel")
        return top is not None and os.path.realpath(top.rstrip("\n")) == os.path.realpath(self.top)

    def sum_of_crates(self, commit: str = "HEAD") -> Optional[str]:
        """The sum of the sources as a commit has them; None where git doesn't know it."""
        rows = self.git("-c", "core.quotePath=true", "ls-tree", "-r", "--full-tree", commit, *SOURCES)
        return hashlib.sha256(rows.encode("utf-8", "surrogateescape")).hexdigest() if rows else None

    def changed_crates(self) -> List[str]:
        """The files of the sources that aren't as HEAD has them, by git's short words."""
        return (self.git("status", "--porcelain", "--untracked-files=all", "--", *SOURCES) or "").splitlines()

    def commits_since(self, commit: str) -> Optional[int]:
        """How many commits changed the sources since that one; None where git doesn't know it, or it isn't below HEAD."""
        if self.git("merge-base", "--is-ancestor", commit, "HEAD") is None:
            return None
        count = self.git("rev-list", "--count", f"{commit}..HEAD", "--", *SOURCES)
        return int(count) if count else None

    def is_own(self, manifest: Manifest) -> bool:
        """Whether the sources here are what the executable was built from."""
        return self.is_checkout() and self.sum_of_crates() == manifest.crates and not self.changed_crates()

    def age(self, manifest: Manifest) -> str:
        """How the sources here stand beside those of the release, in a clause."""
        if not self.is_checkout():
            return "whether crates/ is what it was built from can't be said outside of a git checkout"
        if self.changed_crates():
            return "crates/ has changes here that aren't committed"
        if self.sum_of_crates() == manifest.crates:
            return "built from crates/ as it is here"
        count = self.commits_since(manifest.commit)
        if count is None:
            return f"crates/ is another here, and commit {manifest.commit[:8]}, which it was built from, isn't in this history"
        return f"crates/ has changed since, in {count} commit{'' if count == 1 else 's'}"


def is_target() -> bool:
    """Whether a released executable can run here."""
    return sys.platform == "linux" and platform.machine() in ("x86_64", "amd64")


def leave(data: bytes, path: str) -> None:
    """Leaves a file as a whole, and executable."""
    os.makedirs(os.path.dirname(path), exist_ok=True)
    number, name = tempfile.mkstemp(dir=os.path.dirname(path))
    try:
        with os.fdopen(number, "wb") as file:
            file.write(data)
        os.chmod(name, 0o755)
        os.replace(name, path)
    except BaseException:
        os.unlink(name)
        raise


def unpack(dist: Dist, only_own: bool, path: str) -> int:
    manifest = dist.manifest()
    if manifest is None:
        print("there is no released executable in dist/ yet", file=sys.stderr)
        return 3
    if not is_target():
        print(f"the released executable is for x86-64 Linux, and this is {platform.machine()} {platform.system()}", file=sys.stderr)
        return 3
    if only_own and not dist.is_own(manifest):
        print(f"cbi {manifest.version}: {dist.age(manifest)}", file=sys.stderr)
        return 3
    leave(dist.executable(manifest), path)
    print(path)
    print(f"cbi {manifest.version}, proved by {manifest.kit}; {dist.age(manifest)}", file=sys.stderr)
    return 0


def main(words: List[str]) -> int:
    if not 1 <= len(words) <= 2 or words[0] not in ("unpack", "own"):
        print(__doc__, file=sys.stderr)
        return 2
    dist = Dist(os.path.dirname(os.path.dirname(os.path.abspath(__file__))))
    try:
        return unpack(dist, words[0] == "own", os.path.abspath(words[1]) if words[1:] else os.path.join(dist.folder, "out", "cbi"))
    except (Damaged, OSError) as error:
        print(error, file=sys.stderr)
        return 1


if __name__ == "__main__":
    sys.exit(main(sys.argv[1:]))
