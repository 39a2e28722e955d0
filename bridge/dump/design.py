"""What rtlsim says of a design: the signals of its top, and its clocks."""
import re
import subprocess
import sys
import tempfile
from dataclasses import dataclass

from .vcd import Refused


@dataclass(frozen=True)
class Signal:
    """A port or signal of the top: its name, the indices of its elements from the left (none where it is no vector), and whether it is an in port."""

    name: str
    indices: tuple
    is_input: bool

    @property
    def width(self):
        return len(self.indices) or 1


class Design:
    """A design by its files, the last with its top; the standard input, which is `@`, is read once."""

    def __init__(self, program, others, file, top):
        self.program, self.top = program, top.lower()
        self.words = [*(word for it in others for word in ("--with", it)), file, top]
        self.given = sys.stdin.buffer.read() if "@" in self.words else b""

    def answer(self, *words):
        """What the program prints to these words."""
        done = subprocess.run([self.program, *words], input=self.given, capture_output=True, check=False)
        if done.returncode:
            raise Refused("rtlsim refuses the design:\n" + (done.stderr or done.stdout).decode(errors="replace").rstrip())
        return done.stdout.decode() + done.stderr.decode(errors="replace")

    def signals(self):
        """The ports and signals of the top, in order of declaration."""
        element = re.compile(rf"(?m)^\d+ {re.escape(self.top)}\.(\w+)(?:\((\d+)\))? \S+ (.*)$")
        indices, inputs = {}, set()
        for name, index, sources in element.findall(self.answer("net", *self.words)):
            indices.setdefault(name, []).extend([int(index)] if index else [])
            if sources == "in":
                inputs.add(name)
        return [Signal(name, tuple(places), name in inputs) for name, places in indices.items()]

    def clocks(self):
        """The inputs for whose edges or events some process looks: `run` remarks on them where no line of a stimulus drives them."""
        with tempfile.NamedTemporaryFile("w", suffix=".stim") as stimulus:
            stimulus.write("stop 0\n")
            stimulus.flush()
            told = self.answer("run", "--event", "--explain", *self.words, stimulus.name)
        return set(re.findall(rf"(?m): remark: no line of the stimulus drives the clock {re.escape(self.top)}\.(\w+)", told))
