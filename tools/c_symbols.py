"""The symbols of C headers and their values, for the tools beside this one."""

import ast
import operator
import re

OPERATORS = {
    ast.Add: operator.add, ast.Sub: operator.sub, ast.Mult: operator.mul, ast.Div: operator.floordiv,
    ast.LShift: operator.lshift, ast.RShift: operator.rshift, ast.BitOr: operator.or_, ast.BitAnd: operator.and_,
}


class NoNumber(Exception):
    """A text that is no number, and why."""


def without_comments(text):
    return re.sub(r"/\*.*?\*/|//[^\n]*", " ", text.replace("\\\n", " "), flags=re.DOTALL)


def defines_in(text):
    """The symbols that the text of a header defines, each with the different texts that it is defined as."""
    found = {}
    for name, value in re.findall(r"^[ \t]*#[ \t]*define[ \t]+(\w+)[ \t]+(\S[^\n]*)$", without_comments(text), re.MULTILINE):
        texts = found.setdefault(name, [])
        if value.strip() not in texts:
            texts.append(value.strip())
    return found


def number_of(text, symbols, around=()):
    """The value of a C expression over whole numbers and symbols, of which the first text counts."""
    plain = re.sub(r"\b(0[xX][0-9A-Fa-f]+|[0-9]+)[uUlL]+\b", r"\1", text).strip()
    try:
        tree = ast.parse(plain, mode="eval").body
    except (SyntaxError, ValueError) as error:
        raise NoNumber(f"`{text}` is no number") from error
    return value_of(tree, symbols, around)


def value_of(tree, symbols, around):
    if isinstance(tree, ast.Constant) and type(tree.value) is int:
        return tree.value
    if isinstance(tree, ast.UnaryOp) and isinstance(tree.op, ast.USub):
        return -value_of(tree.operand, symbols, around)
    if isinstance(tree, ast.BinOp) and type(tree.op) in OPERATORS:
        sides = [value_of(side, symbols, around) for side in (tree.left, tree.right)]
        try:
            return OPERATORS[type(tree.op)](*sides)
        except (ArithmeticError, ValueError) as error:
            raise NoNumber(f"`{ast.unparse(tree)}` has no value") from error
    if not isinstance(tree, ast.Name):
        raise NoNumber(f"`{ast.unparse(tree)}` is no number")
    if tree.id not in symbols or tree.id in around:
        raise NoNumber(f"{tree.id} isn't defined")
    return number_of(symbols[tree.id][0], symbols, (*around, tree.id))
