"""Holds the built libraries in prebuilt/ to those that were built anew, or takes those in their place.

    python3 tools/release/prebuilt.py [--make | --check] [--target TARGET [ARCHIVE]]

prebuilt/ has a folder for each target, a processor and a system: x86_64-linux and aarch64-linux. It has libweedle.a,
libweedle.so, weedle.node and SUMS: the version, the line of `rt version` and a SHA-256 of each, as `sha256sum -c` reads it.
With --target one of them is looked at or made, and else all. ARCHIVE is what c/build.sh built for that target; where none is
named c/out/libweedle.a, and c/out/TARGET/libweedle.a of other targets than x86_64-linux.

Without an option each ARCHIVE has to be libweedle.a byte for byte, where this machine's `rt version` is the line in SUMS.
Under another toolchain nothing is compared, and a line says so. Where they differ a line has the command that builds
the library and takes it over.

With --make ARCHIVE is taken over: it is copied, the shared object and Node's addon are linked from it by a C compiler for
the target (cc, or what CC names, for this machine's processor, and aarch64-linux-gnu-gcc and its like for another; the addon
by js/build.sh, which wants Node), and SUMS is written. With --check the files are looked at alone, without the toolchain:
whether all are those of SUMS, of the version of include/weedle.h, whether the shared object is for the folder's processor, has
that version's soname and exports the header's calls and no others, and the addon what Node asks for. Both other runs look at
that too.

It prints a line for each thing that isn't so. The status is 0 where there is none, and else 1.
"""

import argparse
import os
import platform
import re
import shutil
import subprocess
import sys
from pathlib import Path
from typing import Iterator, NamedTuple

if not __package__:
    sys.path[0] = str(Path(__file__).resolve().parent.parent)

from shared.command_line import parser_of
from shared.crates import TOP, Unfit, sum_of

sys.path.insert(0, str(TOP / "python"))

from shared_object import SharedObject  # noqa: E402  (it stands beside the package)

PREBUILT = "prebuilt"
# What is built for, each a processor and a system; the first has its archive right in c/out.
FIRST, *OTHERS = TARGETS = ("x86_64-linux", "aarch64-linux")
FOLDER = f"{PREBUILT}/{FIRST}"
ARCHIVE, SHARED, ADDON, SUMS = "libweedle.a", "libweedle.so", "weedle.node", "SUMS"
BUILT_FILES = (ARCHIVE, SHARED, ADDON)
# What Node calls of an addon.
ASKED = {"napi_register_module_v1", "node_api_module_get_api_version_v1"}
HEADER = "include/weedle.h"
ANEW = "c/build.sh && python3 tools/release/prebuilt.py --make"


class Sums(NamedTuple):
    """What SUMS says: the version, the toolchain, and the sum of each file."""

    version: str
    kit: str
    files: dict[str, str]

    def text(self) -> str:
        """It as SUMS has it."""
        rows = [f"# weedle {self.version}", f"# {self.kit}", *(f"{it}  {name}" for name, it in self.files.items())]
        return "".join(f"{row}\n" for row in rows)


def folder_of(target: str) -> str:
    """The folder of what was built for a target."""
    return f"{PREBUILT}/{target}"


def archive_of(target: str) -> str:
    """Where c/build.sh builds the archive for a target."""
    return f"c/out/{ARCHIVE}" if target == FIRST else f"c/out/{target}/{ARCHIVE}"


def targets_in(top: Path) -> list[str]:
    """The targets that are built in a repository: the first, and those of the others that have a folder."""
    return [FIRST, *(it for it in OTHERS if (top / folder_of(it)).is_dir())]


def processor_of(target: str) -> str:
    """The processor of a target, as `uname -m` has it."""
    return target.partition("-")[0]


def compiler_for(target: str) -> str:
    """The C compiler for a target: CC or cc for this machine's processor, and for another Debian's for it."""
    processor = processor_of(target)
    if processor == platform.machine():
        return os.environ.get("CC", "cc")
    return f"{processor}-linux-gnu-gcc"


def read_sums(folder: Path) -> Sums:
    """What a folder's SUMS says."""
    file = folder / SUMS
    if not file.exists():
        raise Unfit(f"there is no {file}: {ANEW}")
    text = file.read_text(encoding="utf-8")
    found = re.fullmatch(r"# weedle (\d+\.\d+\.\d+)\n# (.+)\n((?:[0-9a-f]{64}  \S+\n)+)", text)
    if not found:
        raise Unfit(f"{file} isn't as this script writes it: {ANEW}")
    files = {name: it for it, name in (row.split("  ") for row in found[3].splitlines())}
    return Sums(found[1], found[2], files)


def version_in(header: str) -> str:
    number = int(re.search(r"^#define WEEDLE_VERSION 0x([0-9a-f]{6})$", header, re.MULTILINE)[1], 16)
    return f"{number >> 16}.{number >> 8 & 255}.{number & 255}"


def soname_of(version: str) -> str:
    """The soname of a version's shared object: of 0.11.2 libweedle.so.0.11."""
    return f"{SHARED}.{version.rpartition('.')[0]}"


def calls_in(header: str) -> set[str]:
    """The calls that a header declares, but for those that it defines, which are static."""
    return set(re.findall(r"^(?!static )[a-z][\w ]*[ *](weedle_\w+)\(", header, re.MULTILINE))


def kit() -> str | None:
    """The line of this machine's `rt version`, if there is one."""
    if not shutil.which("rt"):
        return None
    return subprocess.run(["rt", "version"], capture_output=True, text=True, check=True).stdout.strip()


def faults(top: Path, target: str = FIRST) -> Iterator[str]:
    """A line for each thing that isn't as it has to be, of the files of a target alone."""
    name_of, header = folder_of(target), (top / HEADER).read_text(encoding="utf-8")
    folder, version = top / name_of, version_in(header)
    sums = read_sums(folder)
    if sums.version != version:
        yield f"{name_of} is of version {sums.version}, and {HEADER} of {version}: {ANEW}"
    for name in BUILT_FILES:
        if not (folder / name).exists():
            yield f"there is no {name_of}/{name}: {ANEW}"
        elif sum_of((folder / name).read_bytes()) != sums.files.get(name):
            yield f"{name_of}/{name} isn't what {SUMS} has: {ANEW}"
    for name, calls in ((SHARED, calls_in(header)), (ADDON, ASKED)):
        if (folder / name).exists():
            file = SharedObject((folder / name).read_bytes())
            soname = soname_of(version) if name == SHARED else None
            for fault in (*export_faults(file, calls), *processor_faults(file, target), *name_faults(file, soname)):
                yield f"{name_of}/{name} {fault}: {ANEW}"


def name_faults(file: SharedObject, wanted: str | None) -> Iterator[str]:
    """What is said where a file that has to have a soname has another, or none."""
    found = file.soname()
    if wanted and found != wanted:
        yield f"has {f'the soname {found}' if found else 'no soname'}, and not {wanted}"


def processor_faults(file: SharedObject, target: str) -> Iterator[str]:
    """What is said where a file is for another processor."""
    if file.processor() != processor_of(target):
        yield f"is for {file.processor()}"


def export_faults(file: SharedObject, calls: set[str]) -> Iterator[str]:
    """What is said of each name by which what a file exports isn't what is called."""
    for name in sorted(file.exports() ^ calls):
        which = "exports no" if name in calls else "exports, and nothing declares,"
        yield f"{which} {name}"


def compared(top: Path, archive: Path, found: str | None, target: str = FIRST) -> Iterator[str]:
    """A line where an archive that this toolchain built isn't the one that is there."""
    folder = folder_of(target)
    sums = read_sums(top / folder)
    if found != sums.kit:
        told = f"this is {found}" if found else "there is no rt on PATH"
        print(f"prebuilt: nothing was compared: {folder} was built by {sums.kit}, and {told}")
    elif not archive.exists():
        yield f"there is no {archive} to compare with: c/build.sh builds it"
    elif sum_of(archive.read_bytes()) != sums.files[ARCHIVE]:
        yield f"{archive} isn't {folder}/{ARCHIVE}, which has to be built anew: {ANEW}"


def make(top: Path, archive: Path, found: str | None, target: str = FIRST) -> None:
    """Takes an archive over."""
    compiler = compiler_for(target)
    if not archive.exists():
        raise Unfit(f"there is no {archive}: c/build.sh builds it")
    if not found:
        raise Unfit("the toolchain's command rt isn't on PATH")
    if not shutil.which(compiler):
        raise Unfit(f"there is no {compiler} to link what is for {target}; --target makes others alone")
    folder = top / folder_of(target)
    folder.mkdir(parents=True, exist_ok=True)
    shutil.copyfile(archive, folder / ARCHIVE)
    for script, name in (("c/link_shared.sh", SHARED), ("js/build.sh", ADDON)):
        words = [top / script, folder / ARCHIVE, folder / name]
        subprocess.run(words, check=True, env={**os.environ, "CC": compiler})
    for name in BUILT_FILES:
        (folder / name).chmod(0o644)
    version = version_in((top / HEADER).read_text(encoding="utf-8"))
    files = {name: sum_of((folder / name).read_bytes()) for name in BUILT_FILES}
    (folder / SUMS).write_text(Sums(version, found, files).text(), encoding="utf-8")


def looked(top: Path, target: str, wanted: argparse.Namespace) -> Iterator[str]:
    """A line for each thing that isn't so of a target, once its archive is taken over where that is asked for."""
    archive = wanted.archive or top / archive_of(target)
    try:
        if wanted.make:
            make(top, archive, kit(), target)
        yield from faults(top, target)
        if not (wanted.make or wanted.check):
            yield from compared(top, archive, kit(), target)
    except (Unfit, OSError, ValueError, subprocess.CalledProcessError) as why:
        yield str(why)


def main() -> int:
    parser = parser_of(__doc__)
    ways = parser.add_mutually_exclusive_group()
    ways.add_argument("--make", action="store_true", help="take ARCHIVE over")
    ways.add_argument("--check", action="store_true", help="look at the files alone")
    parser.add_argument("--target", choices=TARGETS, help="look at this target alone")
    parser.add_argument("archive", metavar="ARCHIVE", nargs="?", type=Path)
    wanted = parser.parse_args()
    if wanted.archive and not wanted.target:
        parser.error("ARCHIVE wants --target")
    targets = [wanted.target] if wanted.target else TARGETS if wanted.make else targets_in(TOP)
    found = [row for target in targets for row in looked(TOP, target, wanted)]
    for row in found:
        print(f"prebuilt: {row}")
    return 1 if found else 0


if __name__ == "__main__":
    sys.exit(main())
