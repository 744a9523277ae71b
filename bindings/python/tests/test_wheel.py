"""Tests of the wheel and the sdist in dist/, with the Python in which the wheel is installed."""

import base64
import hashlib
import os
import re
import subprocess
import sys
import tarfile
import tempfile
import unittest
from importlib import metadata
from pathlib import Path

import typst_html_proved
from typst_html_proved import _library

sys.path.append(str(Path(__file__).resolve().parents[1]))  # behind the package that is installed
import backend  # noqa: E402

DIST = Path(__file__).resolve().parents[1] / "dist"
PACKAGE = Path(typst_html_proved.__file__).parent
INSTALLED = metadata.distribution("typst-html-proved")


def only(pattern):
    """Returns the only file of dist/ that has such a name."""
    (path,) = DIST.glob(pattern)
    return path


def glibc(library):
    """Returns the newest glibc whose symbols a library uses, as objdump reports it."""
    symbols = subprocess.run(["objdump", "-T", library], stdout=subprocess.PIPE, check=True, text=True).stdout
    return max(int(found) for found in re.findall(r"GLIBC_2\.(\d+)", symbols))


def made_of_the_sdist(folder, **more):
    """Returns how pip ends when it makes a wheel from the sdist there, without a network."""
    kept = {name: value for name, value in os.environ.items() if not name.startswith(("PIP_", "TYPST_HTML_"))}
    words = ["wheel", "--no-index", "--no-deps", "--no-cache-dir", "--wheel-dir", folder, only("*.tar.gz")]
    how = {"stdout": subprocess.PIPE, "stderr": subprocess.STDOUT, "text": True}
    return subprocess.run([sys.executable, "-m", "pip", "--isolated", *words], env={**kept, **more}, **how)


class Wheel(unittest.TestCase):
    def test_it_is_installed_whole(self):
        files = {str(it): it for it in INSTALLED.files}
        names = ("__init__.py", "_library.py", "libtypst_html.so", "py.typed")
        self.assertLessEqual({f"typst_html_proved/{name}" for name in names}, files.keys())
        for name, file in files.items():
            if file.hash:
                digest = hashlib.new(file.hash.mode, file.read_binary()).digest()
                self.assertEqual(base64.urlsafe_b64encode(digest).rstrip(b"=").decode(), file.hash.value, name)

    def test_it_has_its_own_library(self):
        self.assertNotEqual(PACKAGE.parents[1].name, "bindings")
        self.assertEqual(Path(_library.LIBRARY._name), PACKAGE / _library.NAME)

    def test_its_version(self):
        self.assertEqual(INSTALLED.version, typst_html_proved.__version__)
        self.assertEqual(INSTALLED.metadata["Requires-Python"], ">=3.9")

    def test_its_tag_is_the_glibc_that_it_needs(self):
        tag = f"py3-none-manylinux_2_{max(5, glibc(PACKAGE / _library.NAME))}_x86_64"
        self.assertIn(f"\nTag: {tag}\n", INSTALLED.read_text("WHEEL"))
        self.assertEqual(only("*.whl").name, f"typst_html_proved-{INSTALLED.version}-{tag}.whl")


class Tags(unittest.TestCase):
    def tag(self, source, *words):
        """Returns the tag of a library that is made from C."""
        with tempfile.TemporaryDirectory() as folder:
            made = Path(folder, "library.so")
            command = ["cc", "-shared", "-fPIC", "-O0", "-Wl,--no-as-needed", "-x", "c", "-", "-o", made, *words]
            subprocess.run(command, input=source, text=True, check=True)
            return backend.tag_of(made.read_bytes())

    def test_the_newest_symbol_counts(self):
        source = 'void wanted(void); __asm__(".symver wanted, {0}"); void call(void) {{ wanted(); }}'
        self.assertEqual(self.tag("int call(void) { return 0; }"), "py3-none-manylinux_2_5_x86_64")
        for symbol, least in (("realpath@GLIBC_2.3", 5), ("memcpy@GLIBC_2.14", 14), ("secure_getenv@GLIBC_2.17", 17)):
            with self.subTest(symbol):
                self.assertEqual(self.tag(source.format(symbol)), f"py3-none-manylinux_2_{least}_x86_64")

    def test_other_libraries_have_none(self):
        for words, call in (
            ("the library needs others than glibc: libm.so.6", lambda: self.tag("int a;", "-lm")),
            ("the library is none for x86-64", lambda: backend.tag_of(b"MZ")),
        ):
            with self.subTest(words), self.assertRaises(SystemExit) as caught:
                call()
            self.assertEqual(caught.exception.code, words)


class Sdist(unittest.TestCase):
    def test_it_has_no_library(self):
        with tarfile.open(only("*.tar.gz")) as archive:
            names = {Path(name).name for name in archive.getnames()}
        self.assertLessEqual({"PKG-INFO", "LICENSE", "pyproject.toml", "backend.py", "__init__.py", "py.typed"}, names)
        self.assertNotIn("libtypst_html.so", names)

    def test_it_reports_that_the_library_is_missing(self):
        with tempfile.TemporaryDirectory() as folder:
            done = made_of_the_sdist(folder)
            self.assertNotEqual(done.returncode, 0)
            self.assertIn("no wheel without the library: ", done.stdout)
            self.assertIn("Set TYPST_HTML_LIB to the folder that holds libtypst_html.so.", done.stdout)
            self.assertNotIn("Traceback", done.stdout)
            self.assertEqual(list(Path(folder).iterdir()), [])

    def test_it_makes_the_same_wheel_with_the_library(self):
        with tempfile.TemporaryDirectory() as folder:
            done = made_of_the_sdist(folder, TYPST_HTML_LIB=str(PACKAGE))
            self.assertEqual(done.returncode, 0, done.stdout)
            wheel = only("*.whl")
            self.assertEqual(Path(folder, wheel.name).read_bytes(), wheel.read_bytes())


if __name__ == "__main__":
    unittest.main()
