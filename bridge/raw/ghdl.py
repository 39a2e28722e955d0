"""GHDL, called."""
import subprocess
import sys
import tempfile


def called(folder, *words, seconds=None):
    """What GHDL answers to these words in a folder, within so many seconds if that is asked."""
    return subprocess.run(["ghdl", *words], cwd=folder, capture_output=True, text=True, errors="replace", timeout=seconds)


def printed(files, top, standard, folder=None, seconds=None):
    """What GHDL answers where it prints a design in these files as plain VHDL."""
    with tempfile.TemporaryDirectory() as work:
        return called(folder, "--synth", f"--std={standard}", f"--workdir={work}", "--out=raw-vhdl", *files, "-e", top, seconds=seconds)


def tree(files, standard, folder=None, seconds=None):
    """What GHDL answers where it prints its tree of these files, as XML."""
    with tempfile.TemporaryDirectory() as work:
        return called(folder, "--file-to-xml", f"--std={standard}", f"--workdir={work}", *files, seconds=seconds)


def synthesized(files, top, standard, folder=None):
    """The plain VHDL that GHDL prints of the design in these files; ends the program where it refuses."""
    done = printed(files, top, standard, folder)
    if done.returncode:
        sys.exit(done.stderr.rstrip() or "from-ghdl: GHDL gives no design")
    return done.stdout
