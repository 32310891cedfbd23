"""The expression of an equation: how it is read, and its value in any arithmetic."""
import re
from dataclasses import dataclass
from typing import Mapping, Protocol, TypeVar, Union

T = TypeVar("T")

TOKEN = re.compile(r"\s*(\d+/\d+|\d+|[A-Z][A-Z0-9]*|[-+*()])")


@dataclass(frozen=True)
class Parameter:
    """What a binding gives."""
    name: str


@dataclass(frozen=True)
class Whole:
    """A whole number that stands alone."""
    number: int


@dataclass(frozen=True)
class Scaling:
    """A part times p/q, which is one operation."""
    part: "Expression"
    numerator: int
    denominator: int


@dataclass(frozen=True)
class Operation:
    """A sum, a difference or a product of two parts."""
    sign: str
    left: "Expression"
    right: "Expression"


Expression = Union[Parameter, Whole, Scaling, Operation]


class Arithmetic(Protocol[T]):
    """What an expression is computed with."""
    def whole(self, number: int) -> T: ...

    def scaled(self, value: T, numerator: int, denominator: int) -> T: ...

    def combined(self, sign: str, left: T, right: T) -> T: ...


def value_of(expression: Expression, inputs: Mapping[str, T], arithmetic: Arithmetic[T]) -> T:
    """The value of an expression, computed in the order in which it is grouped."""
    if isinstance(expression, Parameter):
        return inputs[expression.name]
    if isinstance(expression, Whole):
        return arithmetic.whole(expression.number)
    if isinstance(expression, Scaling):
        part = value_of(expression.part, inputs, arithmetic)
        return arithmetic.scaled(part, expression.numerator, expression.denominator)
    left = value_of(expression.left, inputs, arithmetic)
    right = value_of(expression.right, inputs, arithmetic)
    return arithmetic.combined(expression.sign, left, right)


class Reader:
    """Reads an expression from the left."""

    def __init__(self, text: str) -> None:
        self.tokens = TOKEN.findall(text)
        assert "".join(self.tokens) == text.replace(" ", ""), text

    def next_is(self, *tokens: str) -> bool:
        return bool(self.tokens) and self.tokens[0] in tokens

    def sum(self) -> Expression:
        left = self.product()
        while self.next_is("+", "-"):
            sign = self.tokens.pop(0)
            left = Operation(sign, left, self.product())
        return left

    def product(self) -> Expression:
        left = self.factor()
        while self.next_is("*"):
            self.tokens.pop(0)
            if "/" in self.tokens[0]:
                numerator, denominator = self.tokens.pop(0).split("/")
                left = Scaling(left, int(numerator), int(denominator))
            else:
                left = Operation("*", left, self.factor())
        return left

    def factor(self) -> Expression:
        token = self.tokens.pop(0)
        if token == "(":
            inner = self.sum()
            assert self.tokens.pop(0) == ")"
            return inner
        return Whole(int(token)) if token.isdigit() else Parameter(token)


def expression_in(text: str) -> Expression:
    """The expression that a text has."""
    reader = Reader(text)
    expression = reader.sum()
    assert not reader.tokens, text
    return expression
