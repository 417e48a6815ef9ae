"""`python -m zangjulf`: the version, the shared object that is loaded, and the verdict that lies beside it."""

from pathlib import Path

from . import __version__, library_path, library_version

#: what packaging/release.sh writes beside the library: the kit, the program logic and what each crate was proved with
VERDICT = "verdict.txt"


def verdict(library: Path) -> str:
    """The verdict file of a library: beside it, or where packaging/install.sh puts it."""
    for place in (library.parent / VERDICT, library.parent.parent / "share/doc/zangjulf" / VERDICT):
        if place.exists():
            return place.read_text(encoding="utf-8").rstrip()
    return "no verdict.txt lies beside this library"


library = library_path()
print("zangjulf", __version__)
print("library", library, "of version", library_version())
print(verdict(Path(library)))
