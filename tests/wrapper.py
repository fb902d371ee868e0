#!/usr/bin/env python3
"""Tries ./screen and ./drop_empty_adds, each of which runs a program and has it built first: their options, unreadable
files, runs that fail.

    python3 tests/wrapper.py

The programs are built already (`tools/build screen`, `tools/build drop_empty_adds`). How a wrapper has its program built
is tried on a copy, with a toolchain of the test's own that builds at once, fails or is not there. Exits with 1 where
anything differs.
"""

import fcntl
import os
import pathlib
import shutil
import subprocess
import sys
import tempfile
import time
from typing import NamedTuple

sys.dont_write_bytecode = True
import options
from checks import Checks
from options import ROOT
from records import READ, add
from reference import LONGEST_SCRIPT

EXAMPLES = ROOT / "examples"
SCRIPT = EXAMPLES / "stored-script.script"
DROPPED = (EXAMPLES / "without-empty-adds.script").read_bytes()
# What both wrappers share.
SHARED = ROOT / "run-program.sh"
PROGRAMS = ROOT / "target/bin"
# Seconds for one run.
LONGEST_RUN = 60
NOBODY = 65534
# What builds a program.
BUILD = ROOT / "tools/build"
# What the wrappers need besides the toolchain.
TOOLS = "sh cat dirname readlink sed find head tail wc tr mkdir touch flock cp mv"

checks = Checks("wrapper")


class Wrapper(NamedTuple):
    """The name of a wrapper and of its program, and what it writes of the script."""

    name: str
    written: bytes

    @property
    def path(self):
        return ROOT / self.name

    @property
    def program(self):
        return PROGRAMS / self.name

    @property
    def whole(self):
        """A run that writes all."""
        return 0, self.written, ""

    @property
    def crates(self):
        """The crates that the program is made of, by crates.txt; its own is the last."""
        lines = dict(line.split(":") for line in (ROOT / "crates.txt").read_text().splitlines())
        return [crate for crate in [*lines[self.name].split(), self.name] if (ROOT / "crates" / crate).is_dir()]

    def run(self, *arguments, path=None, **given):
        """The status, standard output and standard error of the wrapper, or of another program at the path.

        Standard input is empty where none is given.
        """
        given.setdefault("stdin", subprocess.DEVNULL)
        given.setdefault("stdout", subprocess.PIPE)
        command = [path or self.path, *arguments]
        ended = subprocess.run(command, stderr=subprocess.PIPE, timeout=LONGEST_RUN, **given)
        return ended.returncode, ended.stdout or b"", ended.stderr.decode()

    def check(self, ok, what):
        checks.check(ok, "runs", f"{self.name}: {what}")

    def expect(self, what, found, due):
        self.check(found == due, f"{what}\n  found: {found}\n    due: {due}")

    def refuses(self, what, found, status, says):
        """A run that prints nothing but one line on standard error, with these words in it."""
        ended, stdout, stderr = found
        ok = ended == status and stdout == b"" and stderr.startswith(f"{self.name}: ") and stderr.count("\n") == 1
        self.check(ok and stderr.endswith("\n") and says in stderr, f"{what}: {found}")


SCREEN = Wrapper("screen", (EXAMPLES / "stored-script.listing").read_bytes())
DROP = Wrapper("drop_empty_adds", DROPPED)
WRAPPERS = SCREEN, DROP


# What holds of both.


def of_use(wrapper, folder):
    """Where the script comes from, and where the wrapper is called."""
    run, expect, whole = wrapper.run, wrapper.expect, wrapper.whole
    expect("a file", run(SCRIPT), whole)
    expect("a file after --", run("--", SCRIPT), whole)
    for name in "a name with spaces", "-name", "--help":
        shutil.copy(SCRIPT, folder / name)
        expect(f"a file called {name}", run("--", name, cwd=folder), whole)
    for arguments in (), ("-",):
        with SCRIPT.open("rb") as script:
            expect(f"standard input with {arguments}", run(*arguments, stdin=script), whole)
    expect("an empty script", run("/dev/null"), (0, b"", ""))
    # From another folder, and by a symbolic link to a symbolic link.
    expect("another folder", run(SCRIPT, cwd="/"), whole)
    expect("a path that starts here", run("../" * 20 + str(SCRIPT)[1:], cwd=folder), whole)
    links = folder / "links"
    links.mkdir()
    (links / "first").symlink_to(wrapper.path)
    (links / "second").symlink_to("first")
    for link in links / "first", links / "second", pathlib.Path("links/second"):
        expect(f"by the link {link}", run(SCRIPT, path=link, cwd=folder), whole)
    named = {**os.environ, "PATH": f"{links}:{os.environ['PATH']}", "CDPATH": "/"}
    expect("found by PATH", run("-c", f"second {SCRIPT}", path="sh", env=named), whole)


def of_wrong_use(wrapper, folder):
    run, refuses = wrapper.run, wrapper.refuses
    status, stdout, stderr = run("--help")
    usage = f"usage: ./{wrapper.name} FILE".encode()
    wrapper.check(status == 0 and stderr == "" and stdout.startswith(usage), "--help")
    wrapper.check(b"exit status" in stdout, "--help has the exit status")
    refuses("a directory", run(folder), 2, "directory")
    refuses("no such file", run(folder / "nothing"), 2, "no such file")
    refuses("no name", run(""), 2, "no such file")
    refuses("a name of two lines", run("a\nb"), 2, "a?b")
    refuses("a link to nothing", run(linked(folder / "broken", folder / "nothing")), 2, "no such file")
    refuses("two files", run(SCRIPT, SCRIPT), 2, f"more than one file; ./{wrapper.name} --help")
    refuses("two files after --", run("--", SCRIPT, SCRIPT), 2, "more than one")
    refuses("a file and --help", run(SCRIPT, "--help"), 2, "more than one")
    refuses("an option", run("-x"), 2, f"no option -x; ./{wrapper.name} --help")
    refuses("--version", run("--version"), 2, "no option --version")
    unreadable = folder / "unreadable"
    shutil.copy(SCRIPT, unreadable)
    unreadable.chmod(0)
    # Root reads every file; nobody else gets into the folder.
    folder.chmod(0o755)
    user = {"user": NOBODY} if os.getuid() == 0 else {}
    copy = copied(wrapper, folder / "copy") / wrapper.name
    refuses("an unreadable file", run(unreadable, path=copy, **user), 2, "cannot be read")
    master, slave = os.openpty()
    refuses("no file, and a terminal", run(stdin=slave), 2, f"no file; ./{wrapper.name} --help")
    os.close(master)
    os.close(slave)


def linked(path, to):
    path.symlink_to(to)
    return path


def of_failures(wrapper, folder):
    """Reads and writes that fail."""
    run, refuses = wrapper.run, wrapper.refuses
    refuses("a read that fails", run("/proc/self/mem"), 1, "could not be read")
    with open("/dev/full", "wb") as full:
        refuses("a full device", run(SCRIPT, stdout=full), 1, "could not be written")
    directory = os.open(folder, os.O_RDONLY)
    refuses("standard input is a directory", run("-", stdin=directory), 1, "could not be read")
    os.close(directory)
    closed = f"exec >&-; exec '{wrapper.path}' '{SCRIPT}'"
    refuses("standard output is closed", run("-c", closed, path="sh"), 1, "is closed")
    # A reader that is gone: the write fails, and the status tells.
    ours, theirs = os.pipe()
    os.close(ours)
    wrapper.check(run(SCRIPT, stdout=theirs)[0] != 0, "a reader that is gone")
    os.close(theirs)


# The build, on a copy.

WAITING = "another run builds a program: waiting for it"
# Says what it was asked and of which crate, and 'builds' a program by copying it, where it is not there.
TOOLCHAIN = f"""#!/bin/sh
crate=${{PWD##*/}}
echo "$* $crate" >>../../asked
echo "words of the toolchain"
test -e ../../fails && exit 1
mkdir -p out
test "$1" != run || test -e "out/$crate" || cp "{PROGRAMS}/$crate" out
"""


def copied(wrapper, folder):
    """A copy of the wrapper with the built program and no sources."""
    (folder / "target/bin").mkdir(parents=True)
    shutil.copy(wrapper.program, folder / "target/bin")
    for path in wrapper.path, SHARED:
        shutil.copy(path, folder)
    return folder


def search_path(folder, *more):
    """A folder with links to the tools that the wrappers need, and others."""
    bin_ = folder / "-".join(["bin", *more])
    bin_.mkdir()
    for tool in TOOLS.split():
        (bin_ / tool).symlink_to(shutil.which(tool))
    return bin_


def asked(folder):
    """What the toolchain was asked since this was looked at last."""
    log = folder / "asked"
    lines = log.read_text().splitlines() if log.exists() else []
    log.unlink(missing_ok=True)
    return lines


def of_build(wrapper, folder):
    name, crates, expect, refuses = wrapper.name, wrapper.crates, wrapper.expect, wrapper.refuses
    copy = folder / "repository with spaces"
    shutil.copytree(ROOT / "crates", copy / "crates", ignore=shutil.ignore_patterns("out"))
    for path in wrapper.path, SHARED:
        shutil.copy(path, copy)
    (copy / "tools").mkdir()
    shutil.copy(BUILD, copy / "tools")
    # The other program's line is not looked at.
    [other] = {each.name for each in WRAPPERS} - {name}
    lines = (ROOT / "crates.txt").read_text().splitlines()
    (copy / "crates.txt").write_text("".join(f"{line}\n" for line in lines if not line.startswith(f"{other}:")))
    with_rt, without = search_path(folder, "rt"), search_path(folder)
    (with_rt / "rt").write_text(TOOLCHAIN)
    (with_rt / "rt").chmod(0o755)

    def run(path, *arguments):
        return wrapper.run(*(arguments or [SCRIPT]), path=copy / name, env={"PATH": str(path)})

    refuses("not built, no toolchain", run(without), 1, "no toolchain")
    refuses("wrong use before a build", run(with_rt, folder), 2, "directory")
    (copy / "target").touch()
    refuses("nowhere to build", run(with_rt), 1, "cannot be written")
    (copy / "target").unlink()
    expect("nothing was asked", asked(copy), [])
    status, stdout, stderr = run(with_rt)
    expect("the first run", (status, stdout), (0, wrapper.written))
    said = stderr.splitlines()
    wrapper.check("about three minutes" in said[0], f"how long: {said[0]}")
    wrapper.check(crates[0] == "exact" and crates[-1] == name, f"the crates: {crates}")
    due = [f"{name}: proving {crate} ({n} of {len(crates)})" for n, crate in enumerate(crates, 1)]
    expect("what is proved", said[1:], due)
    expect("what was asked", asked(copy), [*(f"lib {crate}" for crate in crates[:-1]), f"run {name}"])
    expect("the second run", (run(with_rt), asked(copy)), (wrapper.whole, []))
    expect("without the toolchain", run(without), wrapper.whole)
    built = (0, wrapper.written), len(crates)
    for changed in "crates.txt", "crates/exact/specs/Steps.antt", f"crates/{name}/src/main.rt":
        os.utime(copy / changed, (time.time() + 5, time.time() + 5))
        status, stdout, stderr = run(without)
        expect("an older program, no toolchain", (status, stdout, stderr.count("\n")), (0, wrapper.written, 1))
        wrapper.check("run as it is" in stderr, f"an older program: {stderr}")
        os.utime(copy / changed)
        expect(f"{changed} is newer", (run(with_rt)[:2], len(asked(copy))), built)
        expect(f"{changed} is newer no more", (run(with_rt), asked(copy)), (wrapper.whole, []))
    os.utime(copy / "crates/customer/src/lib.rt")
    expect("another crate is newer", (run(with_rt), asked(copy)), (wrapper.whole, []))
    (copy / "crates/exact/out/made").touch()
    expect("what the toolchain made is newer", (run(with_rt), asked(copy)), (wrapper.whole, []))
    (copy / "crates/exact/specs/Scaled.antt").unlink()
    expect("a file is gone", (run(with_rt)[:2], len(asked(copy))), built)
    (copy / "fails").touch()
    os.utime(copy / "crates.txt")
    status, stdout, stderr = run(with_rt)
    expect("a proof that fails", (status, stdout, asked(copy)), (1, b"", ["lib exact"]))
    words = f"words of the toolchain\n{name}: exact was not proved; target/{name}.log has all"
    wrapper.check(words in stderr, f"a failed proof: {stderr}")
    wrapper.check((copy / f"target/{name}.log").is_file(), "the log of a failed proof")
    (copy / "fails").unlink()
    of_waiting(wrapper, copy, with_rt)
    os.utime(copy / "crates.txt")
    (with_rt / "flock").unlink()
    status, stdout, stderr = run(with_rt)
    expect("without flock", (status, stdout, stderr.splitlines()[1:]), (0, wrapper.written, due))


def of_waiting(wrapper, copy, path):
    """A build waits while another one is under way, of either program."""
    command = [copy / wrapper.name, SCRIPT]
    given = {"stdin": subprocess.DEVNULL, "stdout": subprocess.PIPE, "stderr": subprocess.PIPE}
    with (copy / "target/build.lock").open("wb") as lock:
        fcntl.flock(lock, fcntl.LOCK_EX)
        waiting = subprocess.Popen(command, env={"PATH": str(path)}, **given)
        said = waiting.stderr.readline().decode()
        wrapper.expect("while another builds", (said, asked(copy)), (f"{wrapper.name}: {WAITING}\n", []))
    stdout, _ = waiting.communicate(timeout=LONGEST_RUN)
    found = waiting.returncode, stdout, len(asked(copy))
    wrapper.expect("after another build", found, (0, wrapper.written, len(wrapper.crates)))


# What differs.

TOO_LONG = "drop_empty_adds: the script is longer than 65,536 bytes (refusal 8): nothing was written\n"


def of_lengths(folder):
    """The longest scripts, and longer ones. One of them would not be too long without its empty adds."""
    path = folder / "long"
    for script, dropped in (
        (READ * LONGEST_SCRIPT, READ * LONGEST_SCRIPT),
        (add(0) * (LONGEST_SCRIPT // 3) + READ, READ),
        (READ * (LONGEST_SCRIPT + 1), None),
        (add(0) * (LONGEST_SCRIPT // 3 + 1), None),
    ):
        path.write_bytes(script)
        due = (1, b"", TOO_LONG) if dropped is None else (0, dropped, "")
        DROP.expect(f"{len(script)} bytes", DROP.run(path), due)
        if dropped is None:
            SCREEN.expect("a script that is too long", SCREEN.run(path), (0, b"0 refused 8\n", ""))


def of_scripts(folder):
    """Each example, of which one has empty adds; and what comes out is passed through again."""
    for path in sorted(EXAMPLES.glob("*.script")):
        due = DROPPED if path == SCRIPT else path.read_bytes()
        DROP.expect(path.name, DROP.run(path), (0, due, ""))
    new = folder / "new"
    with new.open("wb") as output:
        DROP.expect("to a file", DROP.run(SCRIPT, stdout=output), (0, b"", ""))
    DROP.expect("what was written", new.read_bytes(), DROPPED)
    DROP.expect("twice", DROP.run(new), DROP.whole)


def of_the_same_file(folder):
    """The script is not the file that the new one is written to."""
    path, bytes_ = folder / "script", SCRIPT.read_bytes()
    path.write_bytes(bytes_)
    hard = folder / "hard"
    hard.hardlink_to(path)
    for name in path, "script", hard, linked(folder / "link", path), "-", "/dev/stdin":
        # Appended to the script, and written over it.
        for mode in "ab", "r+b":
            with path.open("rb") as script, path.open(mode) as output:
                found = DROP.run(name, cwd=folder, stdin=script, stdout=output)
            DROP.refuses(f"{name}, {mode}", found, 2, "are the same file")
            DROP.expect(f"{name}, {mode}: the script is as it was", path.read_bytes(), bytes_)
    emptied = f"'{DROP.path}' script >script"
    DROP.refuses("emptied by the shell", DROP.run("-c", emptied, path="sh", cwd=folder), 2, "are the same file")
    # A device may be both.
    with open("/dev/null", "r+b") as null:
        for name in "/dev/null", "-":
            DROP.expect(f"{name} to /dev/null", DROP.run(name, stdin=null, stdout=null), (0, b"", ""))


def main():
    options.parser("Tries ./screen and ./drop_empty_adds.").parse_args()
    for wrapper in WRAPPERS:
        if not os.access(wrapper.program, os.X_OK):
            sys.exit(f"wrapper: no program at {wrapper.program}; `tools/build {wrapper.name}` builds it")
        # Files with a later date, as an editor leaves them, are no part of this test.
        wrapper.run(SCRIPT)
        for part in of_use, of_wrong_use, of_failures, of_build:
            with tempfile.TemporaryDirectory() as folder:
                part(wrapper, pathlib.Path(folder).resolve())
    for part in of_lengths, of_scripts, of_the_same_file:
        with tempfile.TemporaryDirectory() as folder:
            part(pathlib.Path(folder).resolve())
    checks.end()


if __name__ == "__main__":
    main()
