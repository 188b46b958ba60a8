"""The package's version: that of include/bofrashem.h in the repository, of the installed package elsewhere. Where
somebody copied the files alone, as a distribution's package may, nothing says it, and the library's is taken."""
import pathlib
import re
from importlib import metadata
from typing import Optional

ROOT = (pathlib.Path(__file__).resolve().parent / "../../..").resolve()


def in_repository() -> bool:
    """Whether this is the repository's own copy of the package."""
    return (ROOT / "include/bofrashem.h").is_file() and (ROOT / "bindings/python/bofrashem").is_dir()


def said() -> Optional[str]:
    """The version, where something says it."""
    if not in_repository():
        try:
            return metadata.version("bofrashem")
        except metadata.PackageNotFoundError:
            return None
    header = (ROOT / "include/bofrashem.h").read_text(encoding="utf-8")
    found = re.search(r'^#define BOFRASHEM_VERSION "(.*)"$', header, re.M)
    return found[1] if found else None
