"""The library, for the programs of this folder: bindings/python/jinthuol.py, after `tools/build jinthuol`."""

import pathlib
import sys


def load(program):
    """The module. Where there is no library, ends the program with a line that says so."""
    sys.path.insert(0, str(pathlib.Path(__file__).resolve().parent.parent / "bindings/python"))
    try:
        import jinthuol
    except ImportError as error:
        sys.exit(f"{program}: {error}")
    return jinthuol
