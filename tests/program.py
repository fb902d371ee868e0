"""Runs a program of target/bin that reads a script from standard input.

Such a program has no exit status of its own: on standard error it says what it could not do.
"""

import fcntl
import os
import resource
import subprocess
import sys
import tempfile
import time
from typing import NamedTuple

import options

# Seconds for one script.
LONGEST_RUN = 60


class Ended(NamedTuple):
    """How a run ended: the exit status, or None where it did not end, and what was written."""

    status: int | None
    stdout: bytes
    stderr: bytes = b""

    @property
    def text(self):
        """What was written to standard output, as text; a failed run has its status in the text."""
        text = self.stdout.decode("latin-1")
        if self.status != 0 or self.stderr:
            text += f"[exit status {self.status}] {self.stderr.decode('latin-1')}"
        return text


NO_END = Ended(None, b"", f"no end after {LONGEST_RUN} s\n".encode())


def program_option(parser, name):
    """Adds the option that names another program in place of the one in target/bin."""
    parser.add_argument(f"--{name}", default=str(options.ROOT / "target/bin" / name), help=f"the program {name}")


class Program:
    """The program at a path."""

    def __init__(self, path):
        self.path = os.path.abspath(path)
        if not os.access(self.path, os.X_OK):
            sys.exit(f"no program at {path}")

    def run(self, **given):
        """A run on a script: input has its bytes, or stdin is its file. stdout may be a file too."""
        given.setdefault("stdout", subprocess.PIPE)
        try:
            ended = subprocess.run([self.path], stderr=subprocess.PIPE, timeout=LONGEST_RUN, **given)
        except subprocess.TimeoutExpired:
            return NO_END
        return Ended(ended.returncode, ended.stdout or b"", ended.stderr)

    def started(self):
        return subprocess.Popen([self.path], stdin=subprocess.PIPE, stdout=subprocess.PIPE, stderr=subprocess.PIPE)

    def in_pieces(self, script, pieces, pause):
        """A run where the script comes in pieces of these lengths, over and over, with pauses."""
        process = self.started()
        at = n = 0
        try:
            while at < len(script):
                length = pieces[n % len(pieces)]
                os.write(process.stdin.fileno(), script[at : at + length])
                at, n = at + length, n + 1
                time.sleep(pause)
        except BrokenPipeError:
            # It has ended already.
            pass
        process.stdin.close()
        process.stdin = None
        stdout, stderr = process.communicate(timeout=LONGEST_RUN)
        return Ended(process.returncode, stdout, stderr)

    def read_slowly(self, script):
        """A run that writes to a small pipe whose reader is slow."""
        process = self.started()
        if hasattr(fcntl, "F_SETPIPE_SZ"):
            fcntl.fcntl(process.stdout.fileno(), fcntl.F_SETPIPE_SZ, 4096)
        process.stdin.write(script)
        process.stdin.close()
        found = b""
        while piece := os.read(process.stdout.fileno(), 3001):
            found += piece
            time.sleep(0.001)
        stderr = process.stderr.read()
        return Ended(process.wait(LONGEST_RUN), found, stderr)

    def read_fails(self):
        """A run whose standard input is a folder."""
        folder = os.open(options.ROOT, os.O_RDONLY)
        try:
            return self.run(stdin=folder)
        finally:
            os.close(folder)

    def write_fails(self, script):
        """A run on a script whose standard output is full."""
        with open("/dev/full", "wb") as full:
            return self.run(input=script, stdout=full)

    def write_is_cut(self, script, size):
        """A run on a script whose standard output is a file of at most this size: a write is cut, and the next fails."""
        limited = lambda: resource.setrlimit(resource.RLIMIT_FSIZE, (size, size))
        with tempfile.TemporaryFile() as file:
            # The signal that such a write sends is ignored, as it is here.
            ended = self.run(input=script, stdout=file, preexec_fn=limited, restore_signals=False)
            file.seek(0)
            return ended._replace(stdout=file.read())
