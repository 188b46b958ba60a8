"""The package: its declarations beside the header, its hints, its wheel, and what it says where the library is
missing. Run by `make python-test` at the repository's root."""
import importlib.util
import inspect
import os
import pathlib
import re
import shutil
import subprocess
import sys
import tempfile
import typing
import unittest

import bofrashem
from bofrashem import _library, arrays

ROOT = pathlib.Path(__file__).resolve().parents[3]
PACKAGE = ROOT / "bindings/python"
ASKED = "import bofrashem; print(bofrashem.__version__, len(bofrashem.read(b'').nodes), bofrashem.__file__)"


def run(code, path=PACKAGE, **more):
    """Python in another folder, which sees the package by this path alone."""
    env = {k: v for k, v in os.environ.items() if k not in ("BOFRASHEM_LIBRARY", "PYTHONPATH")}
    with tempfile.TemporaryDirectory() as folder:
        return subprocess.run([sys.executable, "-B", "-c", code], cwd=folder, capture_output=True, text=True,
                              timeout=300, env={**env, "PYTHONPATH": str(path), **more})


def at_hand(*modules):
    return all(importlib.util.find_spec(m) for m in modules)


class Declared(unittest.TestCase):
    def test_declarations_are_the_headers(self):
        header = " ".join((ROOT / "include/bofrashem.h").read_text(encoding="utf-8").split())
        said = re.findall(r"^\w+ ynd_\w+\([^)]*\);", _library.DECLARED, re.M)
        self.assertEqual(len(said), len(_library.parsed()))
        for declaration in said:
            self.assertIn(" ".join(declaration.split()), header)

    def test_version(self):
        header = (ROOT / "include/bofrashem.h").read_text(encoding="utf-8")
        self.assertIn(f'#define BOFRASHEM_VERSION "{bofrashem.__version__}"\n', header)
        self.assertEqual(".".join(map(str, bofrashem.version())), bofrashem.__version__)

    def test_every_function_has_hints(self):
        seen = 0
        for module in (bofrashem, arrays, _library, *(sys.modules[f"bofrashem.{n}"] for n in (
                "cell", "rounds", "numbers", "refused", "entries", "_arguments", "_memory", "_version"))):
            calls = [c for c in vars(module).values() if inspect.isfunction(c)]
            for kind in (k for k in vars(module).values() if inspect.isclass(k) and k.__module__ == module.__name__):
                own = [getattr(c, "fget", c) for c in vars(kind).values()]
                calls += [c for c in own if inspect.isfunction(c) and c.__module__ == module.__name__]
            for call in (c for c in calls if c.__module__.startswith("bofrashem")):
                wanted = {p for p in inspect.signature(call).parameters if p != "self"} | {"return"}
                self.assertEqual(wanted - set(call.__annotations__), set(), f"{module.__name__}.{call.__qualname__}")
                seen += 1
        self.assertGreater(seen, 50)
        self.assertTrue((PACKAGE / "bofrashem/py.typed").exists())
        self.assertEqual(typing.get_type_hints(bofrashem.Cell.node)["return"], typing.Optional[int])

    @unittest.skipUnless(importlib.util.find_spec("mypy"), "mypy is not at hand: apt-get install mypy")
    def test_hints_hold(self):
        with tempfile.TemporaryDirectory() as cache:
            said = subprocess.run([sys.executable, "-m", "mypy", "--strict", "--cache-dir", cache, "-p", "bofrashem"],
                                  cwd=PACKAGE, capture_output=True, text=True)
        self.assertEqual(said.returncode, 0, said.stdout)


class Missing(unittest.TestCase):
    def test_what_to_do_is_said(self):
        said = run("import bofrashem", BOFRASHEM_LIBRARY="/nowhere/libbofrashem.so")
        self.assertNotEqual(said.returncode, 0)
        for words in ("ImportError: no library of Bofrashem (/nowhere/lib", "make shared", "BOFRASHEM_LIBRARY"):
            self.assertIn(words, said.stderr)

    def test_another_library_is_said(self):
        said = run("import bofrashem", BOFRASHEM_LIBRARY="libc.so.6")
        self.assertRegex(said.stderr, "ImportError: libc.so.6 has no ynd_version: it is older than this package")


class Copied(unittest.TestCase):
    def test_the_files_alone_go_by_the_library(self):
        """As a distribution's package has them: no metadata, the library found by its name or by the variable."""
        with tempfile.TemporaryDirectory() as folder:
            shutil.copytree(PACKAGE / "bofrashem", pathlib.Path(folder, "bofrashem"))
            said = run(ASKED, path=folder, BOFRASHEM_LIBRARY=_library._candidates()[0])
        self.assertEqual(said.stdout.split()[:2], [".".join(map(str, bofrashem.version())), "0"], said.stderr)


@unittest.skipUnless(at_hand("pip", "setuptools", "wheel"), "pip, setuptools or wheel is not at hand")
class Wheel(unittest.TestCase):
    def test_a_wheel_stands_alone(self):
        with tempfile.TemporaryDirectory() as folder:
            pip = [sys.executable, "-m", "pip", "-q", "--disable-pip-version-check"]
            made = [*pip, "wheel", str(PACKAGE), "--no-deps", "--no-build-isolation", "-w", folder]
            subprocess.run(made, check=True, capture_output=True, text=True, env={**os.environ})
            (wheel,) = pathlib.Path(folder).glob("*.whl")
            self.assertRegex(wheel.name, rf"^bofrashem-{bofrashem.__version__}-py3-none-linux_x86_64\.whl$")
            to = pathlib.Path(folder, "there")
            subprocess.run([*pip, "install", "--no-deps", "--no-index", "--target", str(to), str(wheel)], check=True,
                           capture_output=True)
            self.assertEqual({p.name for p in (to / "bofrashem").iterdir()} - {"__pycache__"},
                             {p.name for p in (PACKAGE / "bofrashem").iterdir() if p.name != "__pycache__"}
                             | {"libbofrashem.so.1"})
            said = run(ASKED, path=to)
            self.assertEqual((said.stderr, said.stdout.split()), (
                "", [bofrashem.__version__, "0", str(to / "bofrashem/__init__.py")]))


if __name__ == "__main__":
    unittest.main()
