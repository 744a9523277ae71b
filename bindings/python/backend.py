"""The build backend of the package: makes wheels and sdists with only the standard library, so that `pip` needs no
network for it.

A wheel holds the package and the shared library. Its tag is `py3-none-manylinux_2_N_x86_64`, with the least N such that
glibc 2.N has all symbols that the library needs: the library needs nothing but glibc, so the wheel fits each Linux on
x86-64 with at least that glibc, and `pip` installs it on no other. (No tag can say that the processor must be
x86-64-v2.) An sdist holds no library, so it makes a wheel only if TYPST_HTML_LIB names the folder of one.

The same sources, library and Python make the same bytes.
"""

from __future__ import annotations

import base64
import gzip
import hashlib
import io
import re
import struct
import sys
import tarfile
import zipfile
from pathlib import Path
from typing import Any, Final, Iterator, Mapping

if sys.version_info < (3, 11):
    sys.exit("a wheel is made by Python 3.11 or later, which reads pyproject.toml itself; it serves 3.9 and later")
import tomllib

HERE: Final = Path(__file__).resolve().parent
PACKAGE: Final = "typst_html_proved"

# the time of all packed files
DATE: Final = (1980, 1, 1, 0, 0, 0)
SECONDS: Final = 315_532_800


def _project() -> Mapping[str, Any]:
    """Returns the table `project` of pyproject.toml, with the version."""
    project = tomllib.loads((HERE / "pyproject.toml").read_text())["project"]
    found = re.search(r'^__version__: Final = "(.*)"$', (HERE / PACKAGE / "__init__.py").read_text(), re.M)
    if found is None:
        sys.exit(f"{PACKAGE}/__init__.py has no version")
    return {**project, "version": found[1]}


def _metadata(project: Mapping[str, Any]) -> bytes:
    """Returns the content of METADATA and PKG-INFO."""
    lines = [
        "Metadata-Version: 2.1",
        f"Name: {project['name']}",
        f"Version: {project['version']}",
        f"Summary: {project['description']}",
        f"License: {project['license']['text']}",
        f"Requires-Python: {project['requires-python']}",
        *(f"Classifier: {it}" for it in project["classifiers"]),
    ]
    return "".join(f"{line}\n" for line in lines).encode()


def _licence() -> bytes:
    """Returns the licence, which an sdist has beside this file, and the repository at its top."""
    beside = HERE / "LICENSE"
    return (beside if beside.exists() else HERE.parent.parent / "LICENSE").read_bytes()


def _sources() -> dict[str, bytes]:
    """Returns the package without the library."""
    paths = [*(HERE / PACKAGE).glob("*.py"), HERE / PACKAGE / "py.typed"]
    return {f"{PACKAGE}/{path.name}": path.read_bytes() for path in paths}


def _library() -> Path:
    """Returns the shared library. Imports the package, so that it is one that it can call."""
    sys.path.insert(0, str(HERE))
    sys.dont_write_bytecode = True
    try:
        from typst_html_proved._library import library_path
    except ImportError as error:
        sys.exit(f"no wheel without the library: {error}\nSet TYPST_HTML_LIB to the folder that holds libtypst_html.so.")
    return library_path()


class _Elf:
    """A shared library in the format ELF, of 64 bits."""

    def __init__(self, data: bytes) -> None:
        if data[:6] != b"\x7fELF\x02\x01" or data[18:20] != b"\x3e\x00":
            sys.exit("the library is none for x86-64")
        self.data = data
        (at,), (size, count) = struct.unpack_from("<Q", data, 40), struct.unpack_from("<HH", data, 58)
        self.sections = [struct.unpack_from("<IIQQQQII", data, at + size * it) for it in range(count)]

    def _of(self, kind: int) -> Iterator[tuple[int, int, int]]:
        """Returns the offset, the length and the place of the texts of each section of a kind."""
        for _, found, _, _, offset, length, link, _ in self.sections:
            if found == kind:
                yield offset, length, self.sections[link][4]

    def _word(self, at: int) -> str:
        return self.data[at : self.data.index(b"\0", at)].decode()

    def needed(self) -> Iterator[str]:
        """Returns the libraries that it needs: the entries 1 of its section of type 6."""
        for offset, length, texts in self._of(6):
            for tag, value in struct.iter_unpack("<QQ", self.data[offset : offset + length]):
                if tag == 1:
                    yield self._word(texts + value)

    def versions(self) -> Iterator[str]:
        """Returns the versions of the symbols that it needs from them: lists in lists, linked by the next one."""
        for at, _, texts in self._of(0x6FFFFFFE):
            more = True
            while more:
                _, _, _, first, following = struct.unpack_from("<HHIII", self.data, at)
                one, onward = at + first, True
                while onward:
                    _, _, _, name, further = struct.unpack_from("<IHHII", self.data, one)
                    yield self._word(texts + name)
                    one, onward = one + further, further != 0
                at, more = at + following, following != 0


def tag_of(library: bytes) -> str:
    """Returns the tag of a wheel with this library."""
    elf = _Elf(library)
    if others := set(elf.needed()) - {"libc.so.6"}:
        sys.exit(f"the library needs others than glibc: {', '.join(sorted(others))}")
    least = 5  # the oldest glibc that a tag can name
    for version in elf.versions():
        found = re.fullmatch(r"GLIBC_2\.(\d+)(?:\.\d+)?", version)
        if found is None:
            sys.exit(f"no glibc is known from which on there is {version}, which the library takes")
        least = max(least, int(found[1]))
    return f"py3-none-manylinux_2_{least}_x86_64"


def _record(files: Mapping[str, bytes], itself: str) -> bytes:
    """Returns the list of the files of a wheel, with their hashes and lengths."""
    lines = []
    for name, data in files.items():
        digest = base64.urlsafe_b64encode(hashlib.sha256(data).digest()).rstrip(b"=").decode()
        lines.append(f"{name},sha256={digest},{len(data)}")
    return "".join(f"{line}\n" for line in [*lines, f"{itself},,"]).encode()


def _zipped(files: Mapping[str, bytes]) -> bytes:
    packed = io.BytesIO()
    with zipfile.ZipFile(packed, "w", zipfile.ZIP_DEFLATED) as archive:
        for name, data in files.items():
            entry = zipfile.ZipInfo(name, DATE)
            entry.external_attr = 0o100644 << 16
            archive.writestr(entry, data, zipfile.ZIP_DEFLATED)
    return packed.getvalue()


def _tarred(folder: str, files: Mapping[str, bytes]) -> bytes:
    packed = io.BytesIO()
    with tarfile.open(fileobj=packed, mode="w") as archive:
        for name, data in files.items():
            entry = tarfile.TarInfo(f"{folder}/{name}")
            entry.size, entry.mtime = len(data), SECONDS
            archive.addfile(entry, io.BytesIO(data))
    return gzip.compress(packed.getvalue(), mtime=SECONDS)


def _written(folder: str, name: str, data: bytes) -> str:
    Path(folder).mkdir(parents=True, exist_ok=True)
    Path(folder, name).write_bytes(data)
    return name


def build_wheel(wheel_directory: str, config_settings: object = None, metadata_directory: object = None) -> str:
    """Makes the wheel in that folder, and returns its name."""
    project, path = _project(), _library()
    library = path.read_bytes()
    tag, stem = tag_of(library), f"{PACKAGE}-{project['version']}"
    wheel = f"Wheel-Version: 1.0\nGenerator: {PACKAGE}\nRoot-Is-Purelib: false\nTag: {tag}\n"
    files = dict(sorted({**_sources(), f"{PACKAGE}/{path.name}": library}.items()))
    files |= {
        f"{stem}.dist-info/LICENSE": _licence(),
        f"{stem}.dist-info/METADATA": _metadata(project),
        f"{stem}.dist-info/WHEEL": wheel.encode(),
    }
    record = f"{stem}.dist-info/RECORD"
    files[record] = _record(files, record)
    return _written(wheel_directory, f"{stem}-{tag}.whl", _zipped(files))


def build_sdist(sdist_directory: str, config_settings: object = None) -> str:
    """Makes the sdist in that folder, and returns its name."""
    project = _project()
    stem = f"{PACKAGE}-{project['version']}"
    files = {name: (HERE / name).read_bytes() for name in ("pyproject.toml", "backend.py")}
    files |= {"PKG-INFO": _metadata(project), "LICENSE": _licence(), **dict(sorted(_sources().items()))}
    return _written(sdist_directory, f"{stem}.tar.gz", _tarred(stem, files))
