"""Gets the source of a program from Debian, builds it, and puts a bug back."""
import glob
import os
import re
import shutil
import subprocess
from typing import List, Optional, Sequence

from real_bug import FILES, Bug, Program

SUITES = ("bookworm", "bookworm-updates", "trixie", "sid")
MIRROR = "http://deb.debian.org/debian"


class Missing(Exception):
    """What is wanting for a bug, so that it is left out."""


def need(*tools: str) -> None:
    for tool in tools:
        if shutil.which(tool) is None:
            raise Missing(f"there is no {tool}")


def call(words: Sequence[str], folder: str, why: str) -> None:
    """Does a step in a folder; its last line says why where it fails."""
    done = subprocess.run(words, cwd=folder, stdin=subprocess.DEVNULL, stdout=subprocess.PIPE, stderr=subprocess.STDOUT, check=False)
    if done.returncode:
        last = done.stdout.decode("utf-8", "replace").strip().split("\n")[-1]
        raise Missing(f"{why}: {last}")


def is_whole(path: str) -> bool:
    """Whether a .dsc is there with all files that it names: apt-get leaves one alone where the mirror has no more of a version."""
    if not os.path.exists(path):
        return False
    with open(path, encoding="utf-8") as file:
        names = re.findall(r"^ [0-9a-f]{64} \d+ (\S+)$", file.read(), re.MULTILINE)
    return bool(names) and all(os.path.exists(os.path.join(os.path.dirname(path), name)) for name in names)


class Sources:
    """The sources below a folder of work. Where `given` is a folder, they are taken from there: from PACKAGE below it, or from PACKAGE_VERSION.dsc."""

    def __init__(self, work: str, given: Optional[str]):
        self.work, self.given = work, given
        self.lists: List[str] = []

    def apt(self) -> List[str]:
        """The options by which apt-get has lists of its own, which name sources where the machine's lists name none."""
        if not self.lists:
            home = os.path.join(self.work, "apt")
            os.makedirs(os.path.join(home, "lists", "partial"), exist_ok=True)
            with open(os.path.join(home, "sources.list"), "w", encoding="ascii") as file:
                file.writelines(f"deb-src {MIRROR} {suite} main\n" for suite in SUITES)
            options = [f"Dir::Etc::SourceList={home}/sources.list", "Dir::Etc::SourceParts=/dev/null", f"Dir::State::Lists={home}/lists"]
            words = [word for option in options for word in ("-o", option)]
            call(["apt-get", *words, "update"], self.work, "apt-get update")
            self.lists = words
        return self.lists

    def fetched(self, program: Program) -> str:
        """The .dsc of a package in its version; or its authors' archive, where there is no more of it."""
        named = f"{program.package}_{program.version.split(':')[-1]}.dsc"
        there = os.path.join(self.given or self.work, named)
        if is_whole(there):
            return there
        if self.given:
            raise Missing(f"{self.given} has neither {program.package} nor {named}")
        need("apt-get", "dpkg-source")
        try:
            call(["apt-get", *self.apt(), "source", "--download-only", f"{program.package}={program.version}"], self.work, f"the source of {program.package} {program.version}")
        except Missing:
            archives = glob.glob(os.path.join(self.work, f"{program.package}_{program.version.rsplit('-', 1)[0]}.orig.tar.*"))
            if not archives:
                raise
            return archives[0]
        return there

    def unpacked(self, program: Program) -> str:
        """The program as the package has it, built, in a folder of its own."""
        folder = os.path.join(self.work, program.name, "mended")
        if os.path.exists(folder + ".ready"):
            return folder
        shutil.rmtree(os.path.dirname(folder), ignore_errors=True)
        os.makedirs(os.path.dirname(folder))
        there = os.path.join(self.given, program.package) if self.given else ""
        if there and os.path.isdir(there):
            shutil.copytree(there, folder, symlinks=True)
        else:
            self.unpack(self.fetched(program), folder)
        for line in program.build:
            call(["sh", "-c", line], folder, f"{program.name}: {line}")
        if program.driver:
            shutil.copy(os.path.join(FILES, program.driver), os.path.join(folder, program.folder))
        for name in [*program.texts(), *program.files]:
            if not os.path.exists(os.path.join(folder, program.folder, name)):
                raise Missing(f"the source of {program.package} has no {name}")
        with open(folder + ".ready", "w", encoding="ascii"):
            return folder

    def unpack(self, archive: str, folder: str) -> None:
        if archive.endswith(".dsc"):
            call(["dpkg-source", "--no-check", "-x", archive, folder], self.work, f"dpkg-source of {os.path.basename(archive)}")
        else:
            os.makedirs(folder)
            call(["tar", "xf", archive, "--strip-components=1", "-C", folder], self.work, f"tar of {os.path.basename(archive)}")

    def with_patch(self, bug: Bug, name: str, patch: Optional[str]) -> str:
        """A copy of the program with a patch of ours; without one the program itself."""
        mended = self.unpacked(bug.program)
        if patch is None:
            return mended
        need("patch")
        folder = os.path.join(self.work, bug.program.name, f"{bug.name}.{name}")
        for old in [folder, *glob.glob(folder + ".*")]:
            shutil.rmtree(old, ignore_errors=True)
        subprocess.run(["cp", "-a", mended, folder], check=True)
        call(["patch", "-p1", "-F0", "-i", os.path.join(FILES, patch)], folder, f"{patch} doesn't fit")
        return folder

    def mended(self, bug: Bug) -> str:
        return self.with_patch(bug, "mended", bug.mend)

    def broken(self, bug: Bug) -> str:
        return self.with_patch(bug, "broken", bug.patch)
