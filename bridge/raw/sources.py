"""What GHDL's analysis knows of the sources, by place: what an operator is of, what a call calls, what a signal starts with.

GHDL's netlists have no types: `k /= '1'` and `not k` are one gate, and a comparison of integers is one of vectors. Their comments name the place of each
gate's source, and the tree that GHDL prints of the sources (`ghdl --file-to-xml`) has the types there. A fact is a line, PLACE and words:

    f.vhd:9:14 operator equality logic     an operator, and the class of its operands; `signed` where they are numbers with a sign; `turned` where such a one
                                           is subtracted from an integer: GHDL subtracts the integer
    f.vhd:9:20 call to_integer             a call of a function of the packages ieee
    f.vhd:9:31 index                       an element or a slice whose place isn't static; `part` where it is
    f.vhd:9:40 choice integer              a choice of a case statement or a selected assignment
    f.vhd:9:45 case '0' 'L'                a case with choices that aren't of 0 and 1 alone, each a branch: GHDL drops these
    f.vhd:9:50 if                          a condition, by the place of its statement; `if event` where it has 'event
    f.vhd:4:10 signal n integer 0* top     a signal: its name, its class, and its elements at the start (0* is as many as there are), or - where that isn't known
                                           (U of an out port that nothing assigns);
                                           of a port its entity, of a component's port `component` and its name. `variable` for a variable

    f.vhd:8:3 forgotten en of top list clk rst assigns p
                                           a process, and the signals that it reads and its sensitivity list leaves out; its entity, the list, and what it
                                           alone assigns, where these are names

The word `counted` behind a fact says that the value is what a to_integer converts; `asked`, that the value is a std_logic that stands as a condition by
itself (`if s then`): 1 and H are true.
"""
import re
import xml.etree.ElementTree as ET

from . import ghdl

CLASSES = {"boolean": "boolean", "std_ulogic": "logic", "bit": "bit"}
# characters that GHDL prints in names and XML hasn't
UNREADABLE = re.compile("[\x00-\x08\x0b-\x1f\ufffe\uffff]")
EXTREMES = ("minimum", "maximum")
CALLS = ("to_integer", "conv_integer", "std_match", "find_leftmost", "find_rightmost")
OBJECTS = ("signal_declaration", "variable_declaration", "interface_signal_declaration")
SUBTYPES = ("enumeration_subtype_definition", "integer_subtype_definition", "array_subtype_definition", "record_subtype_definition")


def place(it):
    return f"{it.get('file')}:{it.get('line')}:{it.get('col')}"


def is_edge(condition):
    """Whether a condition has an edge in it."""
    return any(it.get("kind") == "event_attribute" or it.get("identifier") in ("rising_edge", "falling_edge") for it in condition.iter())


class Sources:
    def __init__(self, text):
        self.root = ET.fromstring(text)
        self.by_id, self.lists = {}, {}
        for it in self.root.iter():
            if "id" in it.attrib:
                self.by_id[it.get("id")] = it
            if "flist-id" in it.attrib:
                self.lists[it.get("flist-id")] = it
        self.driven = {part.get("id") for part in self.targets(self.root, lambda part: True)}

    # the tree

    def child(self, it, tag):
        """A child by its tag, or None; a reference is followed."""
        found = None if it is None else it.find(tag)
        if found is not None and "flist-ref" in found.attrib:
            return self.lists.get(found.get("flist-ref"))
        return self.by_id.get(found.get("ref")) if found is not None and "ref" in found.attrib else found

    def children(self, it, tag):
        return [self.by_id.get(part.get("ref"), part) for part in self.child(it, tag) or ()]

    def base(self, it):
        """The type of a subtype."""
        while it is not None and it.get("kind") in SUBTYPES:
            it = self.child(it, "parent_type")
        return it

    def name(self, it):
        declared = self.child(self.base(it), "type_declarator")
        return "" if declared is None else declared.get("identifier", "")

    def kind(self, it):
        """The class of a type: logic, bit, boolean, enumeration, integer, number (of numeric_std), vector, record, other."""
        base = self.base(it)
        match base is not None and base.get("kind"):
            case "enumeration_type_definition":
                return CLASSES.get(self.name(it), "enumeration")
            case "integer_type_definition":
                return "integer"
            case "array_type_definition" if "numeric_std" in base.get("file", ""):
                return "number"
            case "array_type_definition":
                return "vector"
            case "record_type_definition":
                return "record"
        return "other"

    def kind_of(self, it):
        return self.kind(self.child(it, "type"))

    # what an object starts with

    def number(self, it):
        """A static integer, or None."""
        match it is not None and it.get("kind"):
            case "integer_literal":
                return int(it.get("value"))
            case "enumeration_literal":
                return int(it.get("enum_pos"))
            case "simple_name" | "selected_name" | "character_literal":
                return self.number(self.child(it, "named_entity"))
            case "constant_declaration":
                return self.number(self.child(it, "default_value"))
            case "addition_operator" | "substraction_operator" | "multiplication_operator" as kind:
                left, right = self.number(self.child(it, "left")), self.number(self.child(it, "right"))
                if left is None or right is None:
                    return None
                return left + right if kind[0] == "a" else left - right if kind[0] == "s" else left * right
        return None

    def limits(self, it):
        """The left and right limit of a range, each None where it isn't known."""
        found = self.child(it, "range_constraint")
        sides = [self.child(found, f"{side}_limit") for side in ("left", "right")]
        literal = [self.child(found, f"{side}_limit_expr") for side in ("left", "right")]
        return [self.number(part if part is not None else other) for part, other in zip(sides, literal)]

    def start(self, it):
        """The elements of a type's first value, the leftmost first; a * is for as many of the element before it as there are. None where it isn't known."""
        match self.kind(it):
            case "logic":
                return "U"
            case "boolean" | "bit" | "enumeration" | "integer" as kind:
                return self.scalar(it, kind == "integer")
            case "number" | "vector":
                return self.array(it)
            case "record":
                # the first field stands on the right
                parts = [self.start(self.child(part, "type")) for part in self.children(self.base(it), "elements_declaration_list")]
                text = None if None in parts else "".join(reversed(parts))
                return None if text is None or text.count("*") > 1 else text
        return None

    def scalar(self, it, is_integer):
        left, right = self.limits(it)
        if left is None:
            return None
        if not is_integer:
            literals = len(self.children(self.base(it), "enumeration_literal_list"))
            return f"{left:0{max(literals - 1, 1).bit_length()}b}"
        if right is None:
            return "0*" if left == 0 else None
        least, most = min(left, right), max(left, right)
        if least >= 0:
            return f"{left:0{most.bit_length()}b}" if most else ""
        width = max(most.bit_length(), (-least - 1).bit_length()) + 1
        return f"{left % (1 << width):0{width}b}"

    def array(self, it):
        element = self.start(self.child(self.elements(it), "element_subtype"))
        if element is None:
            return None
        count = 1
        for part in self.children(it, "index_subtype_list") or [None]:
            left, right = self.limits(part)
            literals = self.children(self.base(part), "enumeration_literal_list")
            if left is None and right is None and literals:
                left, right = 0, len(literals) - 1
            count = None if count is None or left is None or right is None else count * (abs(left - right) + 1)
        if count is not None:
            return element * count if "*" not in element else element if len(set(element)) == 2 else None
        return f"{element[0]}*" if element and len(set(element) - {"*"}) == 1 else None

    def elements(self, it):
        """The type of an array that names its elements' type."""
        while self.child(it, "element_subtype") is None and self.child(it, "parent_type") is not None:
            it = self.child(it, "parent_type")
        return it

    # facts

    def fact(self, it):
        """The words of what stands at a place, or None."""
        kind = it.get("kind", "")
        if kind.endswith("_operator") and not kind.endswith("condition_operator"):
            left = self.child(it, "left") if it.find("left") is not None else self.child(it, "operand")
            types = [self.child(side, "type") for side in (left, self.child(it, "right")) if side is not None]
            numbers = [self.name(part) for part in types if self.kind(part) == "number"]
            signed = " signed" if any(name.endswith("signed") and not name.endswith("unsigned") for name in numbers) else ""
            turned = " turned" if kind == "substraction_operator" and signed and self.kind_of(left) not in ("number", "logic") else ""
            return f"operator {kind[: -len('_operator')]} {'number' if numbers else self.kind_of(left)}{signed}{turned}"
        if kind == "function_call":
            called = self.child(it, "implementation")
            is_extreme = called is not None and called.get("identifier") in EXTREMES and "numeric_std" in called.get("file", "")
            is_known = is_extreme or called is not None and called.get("identifier") in CALLS and re.search("ieee|synopsys", called.get("file", ""))
            return f"call {called.get('identifier')}" if is_known else None
        if kind in ("indexed_name", "slice_name"):
            return "part" if it.get("name_staticness") in ("local", "global") else "index"
        if kind in OBJECTS:
            of = self.child(it, "type")
            start = self.start(of) if it.find("default_value") is None else self.given(self.child(it, "default_value"))
            entity = self.child(it, "parent")
            port = f" {entity.get('identifier')}" if entity is not None and entity.get("kind") == "entity_declaration" else ""
            part = f" component {entity.get('identifier')}" if entity is not None and entity.get("kind") == "component_declaration" else ""
            has_start = start and ("0" in start or "1" in start or port and "out" in it.get("mode", "") and it.get("id") not in self.driven)
            word = "variable" if kind == "variable_declaration" else "signal"
            return f"{word} {it.get('identifier')} {self.kind(of)} {start if has_start else '-'}{port}{part}"
        if kind == "sensitized_process_statement" and it.find("process_origin") is None:
            names = self.forgotten(it)
            return f"forgotten {' '.join(names)}{self.listing(it)}" if names else None
        if kind == "choice_by_expression":
            return f"choice {self.kind_of(self.child(it, 'choice_expression'))}"
        if kind == "case_statement":
            return self.choices(it)
        condition = self.child(it, "condition")
        if condition is not None:
            return "if event" if any(part.get("kind") == "event_attribute" for part in condition.iter()) else "if"
        return None

    def given(self, it):
        """The elements of a literal, or of an aggregate of one for all; nothing of another value."""
        if it is not None and it.get("kind") == "aggregate":
            found = self.children(it, "association_choices_chain")
            only = found[0] if len(found) == 1 and found[0].get("kind") == "choice_by_others" else None
            element = self.given(self.child(only, "associated_expr"))
            return f"{element[0]}*" if element and set(element) - {"*"} == {element[0]} else ""
        return self.literal(it)[1:-1]

    def literal(self, it):
        """The text of a literal of elements, or two quotation marks."""
        match it is not None and it.get("kind"):
            case "character_literal":
                return it.get("identifier")
            case "string_literal8":
                return f'"{it.find("string8_id").get("content")}"'
        return "''"

    def choices(self, it):
        """The choices of a case, if some have other elements than 0 and 1, and each is a literal and a branch of its own."""
        found = self.children(it, "case_statement_alternative_chain")
        own = [part for part in found if part.get("kind") == "choice_by_expression"]
        texts = [self.literal(self.child(part, "choice_expression")) for part in own]
        is_plain = all(set(text[1:-1]) <= set("01") for text in texts) or "''" in texts
        return None if is_plain or any(part.get("same_alternative_flag") == "true" for part in found) else f"case {' '.join(texts)}"

    def asked(self):
        """The places of values that stand as conditions by themselves: of names those of their declarations."""
        found = set()
        for it in self.root.iter():
            if it.get("kind") in ("implicit_condition_operator", "condition_operator"):
                operand = self.child(it, "operand")
                declared = self.child(operand, "named_entity")
                found.add(place(operand if declared is None else declared))
        return found

    # processes

    def forgotten(self, it):
        """The signals that a process reads and its sensitivity list leaves out; none of a process with `all`."""
        listed = {part.get("id") for part in map(self.declared, self.children(it, "sensitivity_list"))}
        found = []
        for part in self.read(it) if listed else ():
            if part.get("id") not in listed and part.get("identifier") not in found:
                found.append(part.get("identifier"))
        return found

    def listing(self, it):
        """The entity of a process, its sensitivity list and the signals that nothing else assigns; nothing where that isn't told so simply."""
        region, listed = self.child(it, "parent"), self.children(it, "sensitivity_list")
        own, others = self.assigned(it), []
        for part in self.child(region, "concurrent_statement_chain") or ():
            others += self.assigned(part) if part.get("id") != it.get("id") else ()
        if region.get("kind") != "architecture_body" or not own or set(own) & set(others) or any(part.get("kind") != "simple_name" for part in listed):
            return ""
        entity = self.child(region, "entity_name").get("identifier")
        return f" of {entity} list {' '.join(part.get('identifier') for part in listed)} assigns {' '.join(dict.fromkeys(own))}"

    def assigned(self, it):
        """The names of what statements assign, or an instance's ports may."""
        return [part.get("identifier", "") for part in self.targets(it, lambda part: part.find("formal") is not None)]

    def targets(self, it, is_written):
        """What statements assign, and the actuals that may be written."""
        for part in it.iter():
            if "signal_assignment" in part.get("kind", "") and part.find("target") is not None:
                yield self.declared(self.child(part, "target"))
            elif part.get("kind") == "association_element_by_expression" and self.child(part, "actual") is not None and is_written(part):
                yield self.declared(self.child(part, "actual"))

    def declared(self, it):
        """What a name names, by its leftmost part."""
        while it.get("kind") in ("indexed_name", "slice_name", "selected_element"):
            it = self.child(it, "prefix")
        found = self.child(it, "named_entity")
        return it if found is None else found

    def read(self, it):
        """The signals that statements or an expression read; of a branch at an edge, what stands before it."""
        for part in it:
            kind, condition = part.get("kind", ""), self.child(part, "condition")
            if part.tag in ("target", "parent", "sensitivity_list", "process_origin", "declaration_chain") or kind.endswith("_attribute"):
                continue
            if kind == "simple_name" and self.declared(part).get("kind") in ("signal_declaration", "interface_signal_declaration"):
                yield self.declared(part)
            elif condition is not None and is_edge(condition):
                yield from self.read(part.find("else_clause")) if part.find("else_clause") is not None else ()
            else:
                yield from self.read(part)

    def counted(self):
        """The places of the values that a to_integer converts, where they aren't names."""
        found = set()
        for it in self.root.iter():
            called = self.child(it, "implementation") if it.get("kind") == "function_call" else None
            if called is not None and called.get("identifier") == "to_integer":
                part = self.child((self.children(it, "parameter_association_chain") or [None])[0], "actual")
                while part is not None and part.get("kind") in ("type_conversion", "qualified_expression", "parenthesis_expression"):
                    part = self.child(part, "expression")
                if part is not None and part.get("kind") != "simple_name":
                    found.add(place(part))
        return found

    def facts(self):
        found, asked, counted = {}, self.asked(), self.counted()
        for it in self.root.iter():
            if it.get("file", "*")[0] in "*" or "kind" not in it.attrib:
                continue
            fact = self.fact(it)
            if fact:
                said = " counted" if place(it) in counted else " asked" if place(it) in asked else ""
                found.setdefault(place(it), fact + said)
        return found


def facts(files, standard, folder=None):
    """The facts of these files by place; none where GHDL prints no tree of them."""
    done = ghdl.tree(files, standard, folder)
    if done.returncode or not done.stdout:
        return {}
    return Sources(UNREADABLE.sub("", done.stdout)).facts()


def as_text(facts):
    return "".join(f"{place} {fact}\n" for place, fact in facts.items())


def of_text(text):
    return dict(line.split(" ", 1) for line in text.splitlines())
