"""The calls of tables of rows, as tools/rows.awk reads them."""
import glob
import os
import subprocess
import tempfile
import typing

TOP = os.path.dirname(os.path.dirname(os.path.dirname(os.path.abspath(__file__))))
DATA = f"{TOP}/crates/rows_rtlsim/data"


class Row(typing.NamedTuple):
    """A call and its stored answer; where texts must stand somewhere in the error output, `parts` has them."""

    line: str = ""
    words: list = []
    input: bytes = b""
    status: int = 0
    out: bytes = b""
    err: bytes = b""
    parts: list = []

    def is_told(self, status, out, err):
        told = all(it in err for it in self.parts) if self.parts else err == self.err
        return status == self.status and out == self.out and told


def content(name):
    with open(name, "rb") as file:
        return file.read()


def row_of(cases, listed):
    """The row of a line of the reader's list."""
    name, _, status, line = listed.split(" ", 3)
    at = f"{cases}/{name}"
    words = content(f"{at}.args").decode(errors="surrogateescape").splitlines()
    parts = [content(it) for it in sorted(glob.glob(f"{at}.part*"))]
    return Row(line, words, content(at), int(status), content(f"{at}.stdout"), b"" if parts else content(f"{at}.stderr"), parts)


def rows(table, data=DATA):
    """The rows of a table that a program can make, less those of `run` by levels."""
    with tempfile.TemporaryDirectory() as cases:
        reader = ["awk", "-v", f"data={data}", "-v", f"cases={cases}", "-f", f"{TOP}/tools/rows.awk", table]
        read = subprocess.run(reader, env={**os.environ, "LC_ALL": "C"}, stdout=subprocess.PIPE, check=True)
        lines = read.stdout.decode(errors="surrogateescape").splitlines()
        return [row_of(cases, it) for it in lines if it[4:5] == " "]
