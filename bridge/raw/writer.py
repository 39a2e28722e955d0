"""Prints the tree as VHDL."""
from .tree import Aggregate, Assign, Binary, Call, Event, If, Index, Instance, Literal, Name, Process, Select, Slice, Unary

HEAD = "library ieee;\nuse ieee.std_logic_1164.all;\nuse ieee.numeric_std.all;\n"

def expression(it, is_inner=False):
    match it:
        case Literal() | Name():
            return it.text
        case Index():
            return f"{expression(it.base)}({expression(it.at)})"
        case Slice():
            return f"{expression(it.base)}({expression(it.high)} downto {expression(it.low)})"
        case Call():
            return f"{it.function}({', '.join(map(expression, it.arguments))})"
        case Event():
            return f"{expression(it.signal)}'event and {expression(it.signal)} = {expression(it.level)}"
        case Aggregate():
            return f"(others => {expression(it.parts[0][1])})"
        case Unary():
            text = f"{it.operator} {expression(it.operand, True)}"
        case Binary(operator="&"):
            # from the left, as & groups
            left = expression(it.left, not (isinstance(it.left, Binary) and it.left.operator == "&"))
            text = f"{left} & {expression(it.right, True)}"
        case Binary():
            text = f"{expression(it.left, True)} {it.operator} {expression(it.right, True)}"
    return f"({text})" if is_inner else text


def shape(it):
    return "std_logic" if it.is_bit else f"std_logic_vector({it.high} downto {it.low})"


def declared(it):
    return f"  {it.kind} {it.name} : {shape(it.shape)}{' := ' + expression(it.value) if it.value else ''};"


def values(parts):
    return " else ".join(f"{expression(value)} when {expression(condition)}" if condition else expression(value) for value, condition in parts)


def choices(them):
    return " | ".join(map(expression, them)) or "others"


def statement(it, indent):
    match it:
        case Assign():
            return [f"{indent}{expression(it.target)} {':=' if it.is_variable else '<='} {values(it.parts)};"]
        case Select():
            parts = ",\n".join(f"{indent}  {expression(value)} when {choices(them)}" for value, them in it.parts)
            return [f"{indent}with {expression(it.selector)} select {expression(it.target)} <=\n{parts};"]
        case Instance():
            ports = ", ".join(f"{formal} => {expression(actual)}" for formal, actual in it.ports)
            return [f"{indent}{it.label} : entity work.{it.entity}{f' port map ({ports})' if ports else ''};"]
        case If():
            return conditional(it, indent)
        case Process():
            lines = [f"{indent}process ({', '.join(map(expression, it.sensitive))})", *(f"{indent}{declared(part)}" for part in it.variables), f"{indent}begin"]
            for part in it.body:
                lines += statement(part, indent + "  ")
            return lines + [f"{indent}end process;"]


def conditional(it, indent):
    lines = []
    for at, (condition, body) in enumerate(it.parts):
        lines.append(f"{indent}else" if condition is None else f"{indent}{'elsif' if at else 'if'} {expression(condition)} then")
        for part in body:
            lines += statement(part, indent + "  ")
        lines += [] if body else [f"{indent}  null;"]
    return lines + [f"{indent}end if;"]


def entity(it):
    start = lambda port: f" := {expression(port.value)}" if port.value else ""
    ports = ";\n".join(f"    {port.name} : {port.kind} {shape(port.shape)}{start(port)}" for port in it.ports)
    lines = [HEAD, f"entity {it.name} is"] + ([f"  port (\n{ports});"] if ports else []) + ["end entity;", "", f"architecture rtl of {it.name} is"]
    lines += [declared(part) for part in it.declared] + ["begin"]
    place = ""
    for part in it.body:
        if part.place and part.place != place:
            place = part.place
            lines.append(f"  -- {place}")
        lines += statement(part, "  ")
    return "\n".join(lines + ["end architecture;", ""])


def file(entities):
    return "\n".join(map(entity, entities))
