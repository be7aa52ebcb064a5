"""Reading names and expressions of a unit text into its tree. What isn't of the grammar (docs/GRAMMAR.md) is refused."""
from collections.abc import Callable
from typing import NoReturn, TypeVar

from grammar_words import Word, fault_at, value
from judge_tree import Attribute, Call, Expression, Identifier, Literal, Name, Named, Operation, Parenthesised, Prefixed, Range
from judge_tree_declarations import Parameter

Found = TypeVar("Found")
MOST_OPEN = 64
RELATIONS = ("=", "/=", "<", "<=", ">", ">=")


def literal_value(text: str) -> int:
    """What a literal among the words stands for."""
    base, mark, digits = text.partition("#")
    return value(digits.rstrip("#"), value(base, 10)) if mark else value(base, 10)


class ExpressionReader:
    """Goes through the words from left to right; each method reads what it is named for, or raises TextFault."""

    def __init__(self, words: list[Word]) -> None:
        self.words = words
        self.at = 0
        self.statements_open = self.parentheses_open = 0

    @property
    def word(self) -> Word:
        return self.words[self.at]

    def see(self, *kinds: str, ahead: int = 0) -> bool:
        place = self.at + ahead
        return place < len(self.words) and self.words[place].kind in kinds

    def refuse(self, fault: str = "Unexpected") -> NoReturn:
        raise fault_at(f"parse {fault}", self.word.place)

    def next(self) -> Word:
        self.at += 1
        return self.words[self.at - 1]

    def took(self, kind: str) -> bool:
        found = self.see(kind)
        self.at += found
        return found

    def take(self, *kinds: str) -> int:
        """Reads words of these kinds, one after another; the place of the last."""
        for kind in kinds:
            if not self.took(kind):
                self.refuse()
        return self.words[self.at - 1].place

    def several(self, separator: str, read: Callable[[], Found]) -> list[Found]:
        found = [read()]
        while self.took(separator):
            found.append(read())
        return found

    def opened(self) -> None:
        """An opening parenthesis."""
        if self.parentheses_open == MOST_OPEN:
            self.refuse("TooDeep")
        self.take("(")
        self.parentheses_open += 1

    def closed(self) -> None:
        self.take(")")
        self.parentheses_open -= 1

    def listed(self, separator: str, read: Callable[[], Found]) -> list[Found]:
        """What stands in parentheses, where there are any."""
        if not self.see("("):
            return []
        self.opened()
        found = self.several(separator, read)
        self.closed()
        return found

    def identifier(self) -> Identifier:
        word = self.word
        return Identifier(self.take("name"), word.text)

    def identifiers(self) -> list[Identifier]:
        return self.several(",", self.identifier)

    def name(self) -> Name:
        place = self.word.place
        return Name(place, self.several(".", lambda: self.identifier().text))

    def names(self) -> list[Name]:
        return self.several(",", self.name)

    def operator(self) -> list[str]:
        """The words of the operator of relations that stands here, if any."""
        if not self.see("and", "or", "xor"):
            return []
        more = {"and": "then", "or": "else"}.get(self.word.kind, "")
        return [self.word.kind, more] if self.see(more, ahead=1) else [self.word.kind]

    def expression(self) -> Expression:
        place, operands, operators = self.word.place, [self.relation()], []
        operator = self.operator()
        while operator and self.see(operator[0]):
            self.take(*operator)
            operators.append(" ".join(operator))
            operands.append(self.relation())
        return Operation(place, "", operands, operators) if operators else operands[0]

    def relation(self) -> Expression:
        place, found = self.word.place, self.simple()
        if self.see(*RELATIONS):
            operator = self.next().kind
            found = Operation(place, "", [found, self.simple()], [operator])
        return found

    def simple(self) -> Expression:
        place, sign = self.word.place, self.next().kind if self.see("+", "-") else ""
        operands, operators = [self.term()], []
        while self.see("+", "-"):
            operators.append(self.next().kind)
            operands.append(self.term())
        return Operation(place, sign, operands, operators) if sign or operators else operands[0]

    def term(self) -> Expression:
        place, operands, operators = self.word.place, [self.factor()], []
        while self.see("*", "/", "mod", "rem"):
            operators.append(self.next().kind)
            operands.append(self.factor())
        return Operation(place, "", operands, operators) if operators else operands[0]

    def factor(self) -> Expression:
        if self.see("abs", "not"):
            word = self.next()
            return Prefixed(word.place, word.kind, self.primary())
        return self.primary()

    def primary(self) -> Expression:
        place = self.word.place
        if self.see("number"):
            return Literal(place, literal_value(self.next().text))
        if self.see("("):
            self.opened()
            inner = self.expression()
            self.closed()
            return Parenthesised(place, inner)
        name = self.name()
        if self.took("'"):
            return Attribute(place, name, self.identifier())
        return Call(place, name, self.listed(",", self.expression)) if self.see("(") else Named(place, name)

    def range(self) -> Range | None:
        """The range behind the word `range`, where there is one."""
        if not self.took("range"):
            return None
        low = self.expression()
        self.take("..")
        return Range(low.place, low, self.expression())

    def parameters(self) -> list[Parameter]:
        return self.listed(";", self.parameter)

    def parameter(self) -> Parameter:
        place, names = self.word.place, self.identifiers()
        self.take(":")
        is_in, is_out = self.took("in"), self.took("out")
        mode = ("in out" if is_in else "out") if is_out else "in"
        return Parameter(place, names, mode, self.name(), self.word.place)
