"""Words of GHDL's plain VHDL."""
import re
from dataclasses import dataclass, replace

from .tree import Refused

WORD = re.compile(
    r"""(?P<space>\s+)|--(?P<comment>[^\n]*)|(?P<char>'[^\n]'(?!'))|(?P<string>[xX]?"(?:[^"\n]|"")*")|(?P<extended>\\(?:[^\\\n]|\\\\)+\\)"""
    r"""|(?P<name>[A-Za-z]\w*)|(?P<number>\d[\d_]*)|(?P<sign>:=|<=|>=|/=|=>|\*\*|[-+*/&=<>():;,.'|])"""
)
PLACE = re.compile(r"^ (\S.*:\d+:\d+)\s*$")
GATE = re.compile(r"^ +\(?(signal|isignal|port|output|uext|sext|trunc)\)?\s*$")


@dataclass(frozen=True)
class Word:
    kind: str
    text: str
    place: str
    is_named: bool = False  # whether the place is named right before this word
    gate: str = ""  # what a comment right behind it calls the gate


RESERVED = ("when", "else", "elsif", "if", "is", "select", "and", "or", "xor", "nand", "nor", "xnor", "not", "abs", "mod", "rem")


def is_named(word):
    """Whether a tick behind this word is one of a qualified expression or an attribute (15.3 of the standard)."""
    return word.text == ")" or word.kind == "extended" or word.kind == "name" and word.text not in RESERVED


def words(text):
    """The words, each with the place that the last comment before it names."""
    found, at, place, is_new = [], 0, "", False
    while at < len(text):
        it = WORD.match(text, at)
        if text[at] == "'" and found and is_named(found[-1]):
            found.append(Word("sign", "'", place))
            at += 1
            continue
        if not it:
            raise Refused(f"a word that isn't known: {text[at : at + 20]!r}", place)
        at = it.end()
        if it.lastgroup == "comment":
            named, gate = PLACE.match(it["comment"]), GATE.match(it["comment"])
            place, is_new = (named[1], True) if named else (place, is_new)
            if gate and found:
                found[-1] = replace(found[-1], gate=gate[1])
        elif it.lastgroup != "space":
            kind = it.lastgroup
            found.append(Word(kind, it[0].lower() if kind == "name" else it[0], place, is_new))
            is_new = False
    found.append(Word("end", "", place))
    return found
