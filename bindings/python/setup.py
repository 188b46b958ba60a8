"""What pyproject.toml can't say: the version is the header's, and the shared library goes into the wheel."""
import os
import pathlib
import re
import shutil
import tempfile

from setuptools import Distribution, setup
from setuptools.command.build_py import build_py

try:
    from setuptools.command.bdist_wheel import bdist_wheel
except ImportError:
    from wheel.bdist_wheel import bdist_wheel

ROOT = pathlib.Path(__file__).resolve().parents[2]
# a folder of its own each time: what an earlier build left is in no wheel
BUILT = tempfile.TemporaryDirectory()


def version():
    header = (ROOT / "include/bofrashem.h").read_text(encoding="utf-8")
    return re.search(r'^#define BOFRASHEM_VERSION "(.*)"$', header, re.M)[1]


def library():
    """The shared library: the file that BOFRASHEM_LIBRARY names, else the repository's."""
    file = pathlib.Path(os.environ.get("BOFRASHEM_LIBRARY") or ROOT / "target/lib/libbofrashem.so")
    if not file.is_file():
        raise SystemExit(f"{file} is missing: run `make shared` at the repository's root, or let BOFRASHEM_LIBRARY "
                         "name it")
    return file


class WithLibrary(build_py):
    def run(self):
        super().run()
        shutil.copy(library(), os.path.join(self.build_lib, "bofrashem", "libbofrashem.so.1"))


class OfAnyPython(bdist_wheel):
    """A wheel for every Python 3 on this machine's kind: the library is called by ctypes."""

    def get_tag(self):
        return "py3", "none", super().get_tag()[2]


class WithBinary(Distribution):
    """What holds machine code is of one kind of machine."""

    def has_ext_modules(self):
        return True


setup(version=version(), distclass=WithBinary, cmdclass={"build_py": WithLibrary, "bdist_wheel": OfAnyPython},
      options={"build": {"build_base": BUILT.name}, "egg_info": {"egg_base": BUILT.name}})
