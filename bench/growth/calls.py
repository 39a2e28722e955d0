"""The files of a case, and calls over them under limits of time and memory.

The files are written by a script of its own, so that the one that makes the calls stays small: the greatest memory of a process is told as
at least that of the one that starts it.
"""
import os
import subprocess
import sys
import typing

MEMORY = 2 << 20  # KB of address space that a call may have


class Taken(typing.NamedTuple):
    """What a call took: its status, the negative number of a signal; seconds of processor; greatest memory in MB."""

    status: int
    seconds: float
    memory: float


def write(case, folder):
    """Writes the files of a case into a folder."""
    os.makedirs(folder, exist_ok=True)
    named = {"t.vhd": case.source, "t.stim": case.stimulus, "t.expected": case.expected, "t.words": "\n".join(case.words)}
    named.update((f"other{k}.vhd", text) for k, text in enumerate(case.others))
    for name, text in named.items():
        if text:
            with open(f"{folder}/{name}", "w") as file:
                file.write(text)


def write_apart(*words):
    """Has a script write a case, in a process of its own."""
    subprocess.run([sys.executable, sys.argv[0], "--write", *map(str, words)], check=True)


def words_of(command, folder):
    """The words of a command over the files in a folder."""
    begun = command.split()
    if os.path.exists(f"{folder}/t.expected"):
        begun += ["--expect", f"{folder}/t.expected"]
    for name in sorted(os.listdir(folder)):
        begun += ["--with", f"{folder}/{name}"] if name.startswith("other") else []
    begun += [f"{folder}/t.vhd", "t"]
    if begun[0] == "run":
        begun.append(f"{folder}/t.stim")
    if os.path.exists(f"{folder}/t.words"):
        with open(f"{folder}/t.words") as file:
            begun += file.read().split()
    return begun


def taken(words, seconds):
    """Makes a call, which is ended by a signal after so many seconds of processor."""
    limited = ["sh", "-c", f'ulimit -t {seconds}; ulimit -v {MEMORY}; exec "$@"', "sh", *words]
    process = subprocess.Popen(limited, stdin=subprocess.DEVNULL, stdout=subprocess.DEVNULL, stderr=subprocess.DEVNULL)
    _, status, usage = os.wait4(process.pid, 0)
    process.returncode = os.waitstatus_to_exitcode(status)
    return Taken(process.returncode, usage.ru_utime + usage.ru_stime, usage.ru_maxrss / 1024)
