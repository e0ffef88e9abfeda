"""Says what the version's number has to become, by what callers could name in the last version and can name now.

    python3 tools/release/next_version.py [--all] [COMMIT]

The last version is that of COMMIT, and where none is given of the newest commit that CHANGELOG.md names, as `Commit
0123456789ab`. Compared are the header for C, the public names of the Python package, the public items of the Rust package and
the declarations of the JavaScript package, all as the sources have them (surfaces/). What each difference asks of callers:

- new: there is more to name;
- ABI: a program in C has to be compiled anew, since a struct has grown, or a rule or a status has another number or is new;
- broken: what a name says has changed, or it is gone.

While the first number is 0 the second grows by ABI and broken, and the third by all else. From 1.0.0 on the first grows by
broken, the second by ABI and new.

It prints up to ten differences of each language, all of them with --all, and what the number has to become. The status is 0
where it is as great as that, or greater, or where nothing has changed; 1 where it has to grow; 2 where nothing can be compared.
Where git doesn't know the commit a line says that this was left out, and the status is 0.
"""

import io
import re
import subprocess
import sys
import tarfile
import tempfile
from pathlib import Path
from types import ModuleType
from typing import NamedTuple

if not __package__:
    sys.path[0] = str(Path(__file__).resolve().parent.parent)

from release.prebuilt import HEADER, version_in
from release.surfaces import Change, c, javascript, python, rust
from shared.command_line import ended, parser_of
from shared.crates import TOP, Unfit

LANGUAGES: dict[str, ModuleType] = {"C": c, "Python": python, "Rust": rust, "JavaScript": javascript}
# What is read of a commit.
FOLDERS = ("include", "python/weedle", "rust/src", "js")
COMMIT = re.compile(r"^Commit `([0-9a-f]{7,40})`", re.M)
MOST = 10
WORDS = {Change.ADDED: "new", Change.ABI: "ABI", Change.BROKEN: "broken"}


class Version(NamedTuple):
    """A version's three numbers."""

    first: int
    second: int
    third: int

    def __str__(self) -> str:
        return f"{self.first}.{self.second}.{self.third}"

    def behind(self, change: Change) -> "Version":
        """The least version that may have such a change."""
        if change == Change.BROKEN and self.first:
            return Version(self.first + 1, 0, 0)
        if change >= (Change.ADDED if self.first else Change.ABI):
            return Version(self.first, self.second + 1, 0)
        return Version(self.first, self.second, self.third + 1)


class Difference(NamedTuple):
    """What of a name has changed, and what that asks of callers; None is a name that isn't there."""

    change: Change
    name: str
    old: str | None
    new: str | None

    def __str__(self) -> str:
        if self.old is None or self.new is None:
            return f"{WORDS[self.change]}: {self.name}{' is gone' if self.new is None else ''}"
        old, new = (" ".join(it.split()) for it in (self.old, self.new))
        return f"{WORDS[self.change]}: {self.name} was {old}, and is {new}"


def newest_commit(changelog: str) -> str:
    """The commit of the newest version that names one."""
    found = COMMIT.search(changelog)
    if not found:
        raise Unfit("CHANGELOG.md names the commit of no version")
    return found[1]


def version_of(root: Path) -> Version:
    header = root / HEADER
    if not header.exists():
        raise Unfit(f"the last version has no {HEADER}")
    return Version(*map(int, version_in(header.read_text(encoding="utf-8")).split(".")))


def differences(language: ModuleType, before: Path, now: Path) -> list[Difference]:
    """What differs of two trees in a language, what asks most of callers first."""
    old, new = language.surface_of(before), language.surface_of(now)
    found = [
        Difference(language.change_of(name, old.get(name), new.get(name)), name, old.get(name), new.get(name))
        for name in dict.fromkeys([*old, *new])
        if old.get(name) != new.get(name)
    ]
    return sorted(found, key=lambda it: -it.change)


def unpack(top: Path, commit: str, into: Path) -> bool:
    """Writes what a commit has of these folders; whether git knows the commit."""
    listed = subprocess.run(["git", "ls-tree", "-d", "-r", "--name-only", commit], cwd=top, capture_output=True, text=True, check=False)
    if listed.returncode:
        return False
    there = set(listed.stdout.splitlines())
    words = ["git", "archive", commit, *(it for it in FOLDERS if it in there)]
    packed = subprocess.run(words, cwd=top, capture_output=True, check=True).stdout
    with tarfile.open(fileobj=io.BytesIO(packed)) as files:
        for it in filter(tarfile.TarInfo.isfile, files.getmembers()):
            (into / it.name).parent.mkdir(parents=True, exist_ok=True)
            (into / it.name).write_bytes(files.extractfile(it).read())
    return True


def told(found: list[Difference], most: int | None) -> str:
    """How many differences there are, and the first of them."""
    counts = [f"{sum(it.change == change for it in found)} {WORDS[change]}" for change in reversed(WORDS)]
    rows = [", ".join(it for it in counts if not it.startswith("0 ")) or "nothing has changed", *map(str, found[:most])]
    return "\n    ".join([*rows, *["..."] * (most is not None and len(found) > most)])


def verdict(last: Version, now: Version, change: Change) -> tuple[int, str]:
    """The status, and what the number has to become."""
    least = last.behind(change)
    if change == Change.NONE and now == last:
        return 0, f"the version may stay {now}, and is {least} at least where it is a new one"
    if now >= least:
        return 0, f"the version is {now}, and had to be {least} at least"
    return 1, f"the version is {now}, and has to become {least}"


def run(top: Path, commit: str | None, most: int | None) -> int:
    """Compares, and says so. The status."""
    commit = commit or newest_commit((top / "CHANGELOG.md").read_text(encoding="utf-8"))
    change, now = Change.NONE, version_of(top)
    with tempfile.TemporaryDirectory() as room:
        if not unpack(top, commit, Path(room)):
            print(f"left out: what has changed since the last version, since git doesn't know its commit {commit}")
            return 0
        last = version_of(Path(room))
        print(f"since version {last}, commit {commit}:")
        for name, language in LANGUAGES.items():
            found = differences(language, Path(room), top)
            change = max([change, *(it.change for it in found)])
            print(f"  {name}: {told(found, most)}")
    status, said = verdict(last, now, change)
    print(said)
    return status


def main() -> int:
    parser = parser_of(__doc__)
    parser.add_argument("--all", action="store_true", help="print all differences")
    parser.add_argument("commit", metavar="COMMIT", nargs="?", help="the last version's commit")
    wanted = parser.parse_args()
    return run(TOP, wanted.commit, None if wanted.all else MOST)


if __name__ == "__main__":
    sys.exit(ended(main, faults=[SyntaxError, subprocess.CalledProcessError]))
