"""Faults of names in expressions and statements: what each name means, and whether that can stand there."""
from collections.abc import Iterator
from contextlib import contextmanager

from judge_library import Entity
from judge_scope import Members, NotFound, Region, Scope
from judge_tree import (Accept, Assignment, Attribute, Call, Case, Choice, Delay, Exit, Expression, Identifier, If, Literal, Loop, Name,
                        Named, Node, Operation, Parenthesised, Prefixed, Raise, Range, Return)
from words import folded

VALUES = ("constant", "literal", "line", "variable", "component", "parameter", "loop parameter", "function")
TARGETS = ("constant", "line", "variable", "component", "parameter", "loop parameter")


class Uses:
    def __init__(self, scope: Scope) -> None:
        self.scope = scope
        self.faults: list[tuple[int, str]] = []
        self.entities: dict[int, Entity] = {}  # by the places of their declaring names
        self.loops = 0  # around this statement
        self.is_handler = False

    def tell(self, place: int, fault: str) -> None:
        self.faults.append((place, fault))

    @contextmanager
    def region(self, members: Members, owner: Entity | None) -> Iterator[None]:
        self.scope.regions.append(Region(members, owner))
        yield
        self.scope.regions.pop()

    def lookup(self, name: Name, *kinds: str) -> Entity | None:
        """What a name means, where that is of one of these kinds; else a fault is told."""
        try:
            name.meaning = self.scope.named(name)
        except NotFound as fault:
            self.tell(name.place, fault.fault)
            return None
        if name.meaning.kind in kinds:
            return name.meaning
        self.tell(name.place, "WrongKind")
        return None

    def mark(self, name: Name | None) -> Entity | None:
        return self.lookup(name, "subtype") if name else None

    def ended(self, end: Identifier | None, opening: Identifier) -> None:
        if end and folded(end.text) != folded(opening.text):
            self.tell(end.place, "EndName")

    # Expressions

    def range(self, bounds: Range | None) -> None:
        if bounds:
            self.expression(bounds.low)
            self.expression(bounds.high)

    def expression(self, value: Expression) -> None:
        if isinstance(value, Named):
            self.lookup(value.name, *VALUES)
        elif isinstance(value, Attribute):
            self.lookup(value.name, "subtype")
            if folded(value.attribute.text) not in ("first", "last"):
                self.tell(value.attribute.place, "Unknown")
        elif isinstance(value, Call):
            self.call(value, "function", "subtype")
        elif isinstance(value, Parenthesised):
            self.expression(value.inner)
        elif isinstance(value, Prefixed):
            self.expression(value.operand)
        elif isinstance(value, Operation):
            for operand in value.operands:
                self.expression(operand)
        else:
            assert isinstance(value, Literal)

    def call(self, value: Call, *kinds: str) -> None:
        called = self.lookup(value.name, *kinds)
        takes_suspension = called is not None and any(parameter.kind == "suspended" for parameter in called.parameters)
        for argument in value.arguments:
            if takes_suspension and isinstance(argument, Named):
                self.lookup(argument.name, "suspension", *VALUES)
            else:
                self.expression(argument)

    # Statements

    def statements(self, items: list[Node]) -> None:
        for item in items:
            self.statement(item)

    def statement(self, item: Node) -> None:
        if isinstance(item, Assignment):
            self.lookup(item.target, *TARGETS)
            self.expression(item.value)
        elif isinstance(item, Call):
            self.call(item, "procedure", "entry")
        elif isinstance(item, If):
            for arm in item.arms:
                self.expression(arm.condition)
                self.statements(arm.statements)
            self.statements(item.otherwise)
        elif isinstance(item, Case):
            self.case(item)
        elif isinstance(item, Loop):
            self.loop(item)
        elif isinstance(item, Accept):
            self.accepted(item.name)
        elif isinstance(item, Raise):
            self.raised(item)
        elif isinstance(item, Exit):
            self.exit(item)
        elif isinstance(item, (Delay, Return)) and item.value:
            self.expression(item.value)

    def case(self, item: Case) -> None:
        self.expression(item.selector)
        for alternative in item.alternatives:
            for choice in alternative.choices:
                self.choice(choice)
            self.statements(alternative.statements)

    def choice(self, choice: Choice) -> None:
        """A choice may name a subtype, for all of its values (3.8.1)."""
        if isinstance(choice.low, Named) and choice.high is None:
            self.lookup(choice.low.name, "subtype", *VALUES)
            return
        for bound in (choice.low, choice.high):
            if bound:
                self.expression(bound)

    def loop(self, item: Loop) -> None:
        members: Members = {}
        if item.condition:
            self.expression(item.condition)
        if item.parameter:
            name = item.parameter
            self.entities[name.place] = Entity("loop parameter", name.text, name.place, item.start)
            members[folded(name.text)] = [self.entities[name.place]]
        with self.region(members, None):
            self.bounds(item)
            self.loops += 1
            self.statements(item.statements)
            self.loops -= 1

    def bounds(self, item: Loop) -> None:
        """What a loop parameter goes over."""
        self.mark(item.mark)
        if isinstance(item.over, Range):
            self.range(item.over)
        elif isinstance(item.over, Named):
            self.mark(item.over.name)
        elif item.over:
            self.expression(item.over)

    def accepted(self, name: Identifier) -> None:
        """There are no entries of tasks, so whatever the name means is wrong."""
        self.lookup(Name(name.place, [name.text]), "entry of a task")

    def raised(self, item: Raise) -> None:
        if item.name:
            self.lookup(item.name, "exception")
        elif not self.is_handler:
            self.tell(item.place, "WrongKind")

    def exit(self, item: Exit) -> None:
        if not self.loops:
            self.tell(item.place, "WrongKind")
        if item.condition:
            self.expression(item.condition)
