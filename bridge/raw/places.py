"""Places of the written text, as those of the sources: GHDL names them, and the text has them in comments above its statements."""
import re

PLACE = re.compile(r"^  -- (\S.*:\d+:\d+)$")
TOLD = re.compile(r"(?m)^@:(\d+):\d+:")


def source_of(lines, number):
    """The place in the sources of a line of the text, or that line where none is named."""
    for line in reversed(lines[:number]):
        named = PLACE.match(line)
        if named:
            return named[1]
        if line == "begin":
            break
    return f"line {number} behind the bridge"


def at_sources(told, text):
    """What a program says of the text on its standard input, at the places of the sources."""
    lines = text.split("\n")
    return TOLD.sub(lambda it: f"{source_of(lines, int(it[1]))}:", told)
