"""Makes the wheel of the package, and the sources of one, with the standard library alone.

pip calls `build_wheel`, and for `pip install -e` `build_editable`. A wheel holds a shared object,
so it is for Linux on one processor: the object that the variable WEEDLE_SO names, or else that
beside the package, or else the one in prebuilt/ for this machine's processor, as `import weedle`
takes them. Its tag has that processor, and the oldest glibc that serves. The sources hold the object
that a wheel would, and where that is of prebuilt/ those for other processors too. The same files
give the same bytes, whenever they are packed.
"""

from __future__ import annotations

import base64
import gzip
import hashlib
import io
import os
import re
import tarfile
import zipfile
from pathlib import Path
from typing import Dict, Iterator, List, Optional, Tuple

from shared_object import SharedObject

HOME = Path(__file__).resolve().parent
PACKAGE = HOME / "weedle"
LIBRARY = "weedle/libweedle.so"
# At the top of the repository; in the sources of the package those for other processors alone.
PREBUILT = f"prebuilt/{os.uname().machine}-linux/libweedle.so"
ALL_PREBUILT = "prebuilt/*/libweedle.so"
# What a source distribution holds beside the package, the shared objects and the LICENSE.
SOURCES = ("pyproject.toml", "README.md", "build_backend.py", "shared_object.py")
# Those of its tests that want nothing of the repository.
TESTS = (
    "lsp_client.py", "support.py", "test_library.py", "test_lsp_session.py", "test_package.py",
    "test_program.py", "test_worked_nodes.py",
)
# The oldest glibc that a tag can name.
OLDEST = (2, 5)
# The time of each file in a wheel, the first that a zip file can name; and who may read it.
TIME, MODE = (1980, 1, 1, 0, 0, 0), 0o100644


def project() -> str:
    """The text of pyproject.toml."""
    return (HOME / "pyproject.toml").read_text(encoding="utf-8")


def field(name: str) -> str:
    """A field of pyproject.toml that is a string on a line of its own."""
    found = re.search(rf'^{name} = (?:{{ text = )?"(.*?)"', project(), re.M)
    if not found:
        raise SystemExit(f"pyproject.toml has no {name}")
    return found[1]


def listed(name: str) -> List[str]:
    """A field that is a list of strings."""
    found = re.search(rf"^{name} = \[(.*?)\]$", project(), re.M | re.S)
    return re.findall(r'"(.*?)"', found[1]) if found else []


def scripts() -> List[Tuple[str, str]]:
    """The commands, each with the function that it calls."""
    _, _, rest = project().partition("[project.scripts]\n")
    return re.findall(r'^(\w+) = "(.*)"$', rest.partition("\n[")[0], re.M)


def stem() -> str:
    """What the names of the wheel and of its folder begin with."""
    return f"{field('name')}-{field('version')}"


def license_() -> bytes:
    """The LICENSE, which stands at the top of the repository, and beside this in its sources."""
    beside, above = HOME / "LICENSE", HOME.parent / "LICENSE"
    return (beside if beside.exists() else above).read_bytes()


def man_pages() -> Iterator[Tuple[str, bytes]]:
    """The man pages of the commands, which stand where the LICENSE stands."""
    beside, above = HOME / "man", HOME.parent / "man"
    for path in sorted((beside if beside.exists() else above).glob("weedle[.-]*1")):
        yield path.name, path.read_bytes()


def library_place() -> Path:
    """Where the shared object is that `import weedle` would take."""
    named = os.environ.get("WEEDLE_SO")
    places = [HOME / PREBUILT, HOME / LIBRARY, HOME.parent / PREBUILT]
    if named:
        places = [Path(named)]
    for place in places:
        if place.exists():
            return place
    raise SystemExit(
        f"there is no {' and no '.join(map(str, places))}: python/build.sh of the repository makes "
        "one. "
        "(A pip before 21.3 copies this folder elsewhere, and finds that beside the package alone.)"
    )


def library() -> bytes:
    """That shared object."""
    return library_place().read_bytes()


def others_prebuilt() -> Dict[str, bytes]:
    """The shared objects of prebuilt/ for other processors, where this one's is taken of there."""
    top = HOME.parent
    if library_place() != top / PREBUILT:
        return {}
    names = (it.relative_to(top).as_posix() for it in sorted(top.glob(ALL_PREBUILT)))
    return {name: (top / name).read_bytes() for name in names if name != PREBUILT}


def tag(shared: bytes) -> str:
    """What a wheel with this shared object is for: the oldest glibc that has what it wants."""
    file = SharedObject(shared)
    versions = [OLDEST]
    for name in (it for names in file.wants().values() for it in names):
        found = re.fullmatch(r"GLIBC_(\d+)\.(\d+)(?:\.\d+)?", name)
        if not found:
            return f"py3-none-linux_{file.processor()}"
        versions.append((int(found[1]), int(found[2])))
    major, minor = max(versions)
    return f"py3-none-manylinux_{major}_{minor}_{file.processor()}"


def about() -> bytes:
    """METADATA of a wheel, and PKG-INFO of the sources."""
    rows = [
        "Metadata-Version: 2.1",
        f"Name: {field('name')}",
        f"Version: {field('version')}",
        f"Summary: {field('description')}",
        f"Keywords: {','.join(listed('keywords'))}",
        f"License: {field('license')}",
        *(f"Classifier: {it}" for it in listed("classifiers")),
        f"Requires-Python: {field('requires-python')}",
        "Description-Content-Type: text/markdown",
        "",
        (HOME / field("readme")).read_text(encoding="utf-8"),
    ]
    return "\n".join(rows).encode()


def information(for_: str) -> Dict[str, bytes]:
    """The files that say what a wheel of this tag is."""
    wheel = f"Wheel-Version: 1.0\nGenerator: build_backend\nRoot-Is-Purelib: false\nTag: {for_}\n"
    commands = "".join(f"{name} = {calls}\n" for name, calls in scripts())
    return {
        "METADATA": about(),
        "WHEEL": wheel.encode(),
        "entry_points.txt": f"[console_scripts]\n{commands}".encode(),
        "licenses/LICENSE": license_(),
    }


def modules() -> Iterator[Tuple[str, bytes]]:
    """The modules, and what lies beside them."""
    for path in sorted(PACKAGE.rglob("*")):
        if path.suffix in (".py", ".typed"):
            yield f"weedle/{path.relative_to(PACKAGE).as_posix()}", path.read_bytes()


def record_line(name: str, data: bytes) -> str:
    """A file's line in RECORD."""
    digest = base64.urlsafe_b64encode(hashlib.sha256(data).digest()).rstrip(b"=").decode()
    return f"{name},sha256={digest},{len(data)}\n"


def write_wheel(folder: str, files: Dict[str, bytes], for_: str) -> str:
    """Writes a wheel with these files and this tag, and gives its name."""
    info, name = f"{stem()}.dist-info", f"{stem()}-{for_}.whl"
    files = {**files, **{f"{info}/{it}": data for it, data in information(for_).items()}}
    record = "".join(record_line(it, data) for it, data in files.items()) + f"{info}/RECORD,,\n"
    with zipfile.ZipFile(Path(folder) / name, "w") as wheel:
        for it, data in {**files, f"{info}/RECORD": record.encode()}.items():
            member = zipfile.ZipInfo(it, TIME)
            member.external_attr = MODE << 16
            wheel.writestr(member, data, zipfile.ZIP_DEFLATED)
    return name


def build_wheel(
    wheel_directory: str, config_settings: Optional[dict] = None,
    metadata_directory: Optional[str] = None,
) -> str:
    """Writes the wheel of the package."""
    shared, manual = library(), f"{stem()}.data/data/share/man/man1"
    files = {**dict(modules()), LIBRARY: shared}
    files.update({f"{manual}/{name}": data for name, data in man_pages()})
    return write_wheel(wheel_directory, files, tag(shared))


def build_editable(
    wheel_directory: str, config_settings: Optional[dict] = None,
    metadata_directory: Optional[str] = None,
) -> str:
    """Writes a wheel that points to this folder."""
    return write_wheel(wheel_directory, {"weedle.pth": f"{HOME}\n".encode()}, tag(library()))


def build_sdist(sdist_directory: str, config_settings: Optional[dict] = None) -> str:
    """Writes the sources: the package, tests, and the shared objects as they were built."""
    names = [*SOURCES, *(f"tests/{name}" for name in TESTS)]
    files = {name: (HOME / name).read_bytes() for name in names}
    files.update(modules())
    files.update(others_prebuilt())
    files.update({LIBRARY: library(), "LICENSE": license_(), "PKG-INFO": about()})
    files.update({f"man/{name}": data for name, data in man_pages()})
    packed = io.BytesIO()
    with tarfile.open(fileobj=packed, mode="w") as sources:
        for name, data in files.items():
            member = tarfile.TarInfo(f"{stem()}/{name}")
            member.size = len(data)
            sources.addfile(member, io.BytesIO(data))
    whole = gzip.compress(packed.getvalue(), mtime=0)
    (Path(sdist_directory) / f"{stem()}.tar.gz").write_bytes(whole)
    return f"{stem()}.tar.gz"
