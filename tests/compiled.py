"""Programs in C that call libjinthuol.a, compiled as C and as C++, and what they print."""

import pathlib
import subprocess
import sys

from options import ROOT

BINDINGS = ROOT / "bindings"
BUILT = ROOT / "target/bindings"
# Seconds for one command.
LONGEST_RUN = 120
WARNINGS = ["-Wall", "-Wextra", "-Werror", "-pedantic"]
COMPILERS = {"gcc": ["-std=c99", "-x", "c"], "g++": ["-std=c++11", "-x", "c++"]}
# The name of the test, for what it says.
NAME = pathlib.Path(sys.argv[0]).stem


def differs(what, found, due):
    sys.exit(f"{NAME}: {what}\n    found: {found}\nreference: {due}")


def output(command, **more):
    """What the command writes, where it does not fail."""
    ended = subprocess.run(list(map(str, command)), capture_output=True, timeout=LONGEST_RUN, **more)
    if ended.returncode:
        said = (ended.stdout[-4000:] + ended.stderr[-4000:]).decode(errors="replace")
        sys.exit(f"{NAME}: exit status {ended.returncode} of {' '.join(map(str, command))}\n{said}")
    return ended.stdout


def built(compiler, library, source):
    """The program that the compiler makes of a source in C."""
    program = BUILT / f"{source.stem}-{compiler}"
    files = [*COMPILERS[compiler], f"-I{BINDINGS}/c", source, "-x", "none", library / "libjinthuol.a", "-lm"]
    output([compiler, "-O2", *WARNINGS, *files, "-o", program])
    return program


def library_option(parser):
    """The option --library."""
    parser.add_argument("--library", type=pathlib.Path, default=ROOT / "target/staticlib", help="the library's folder")


def library_of(arguments):
    """The folder that the option names, where it has a library. What is built goes to target/bindings."""
    library = arguments.library.resolve()
    if not (library / "libjinthuol.a").is_file():
        sys.exit(f"{NAME}: no libjinthuol.a in {arguments.library}; `tools/build jinthuol` writes it")
    BUILT.mkdir(parents=True, exist_ok=True)
    return library
