"""Faults of names in bodies: what a body completes, its profile, and its block (6.3.1, 7.1, 9.1, 9.4)."""
from collections.abc import Iterable

from judge_library import Entity, declare
from judge_scope import Members, Scope
from judge_tree import Identifier, Name, Node
from judge_tree_declarations import (Block, Handler, Objects, OperationBody, Operations, Parameter, Pragma, Protected, ProtectedBody,
                                     Subtype, Task, TaskBody)
from judge_uses import Uses
from words import folded

Profile = tuple[list[tuple[str, str, Entity | None]], Entity | None]  # names, modes and marks of parameters; the result


def match(one: Entity | None, other: Entity | None) -> bool:
    """Whether two marks match statically: they are of one subtype, or of static ranges with the same bounds (4.9.1)."""
    return one is other or None not in (one, other) and one.span is not None and one.span == other.span


def conform(one: Profile, other: Profile) -> bool:
    """Whether two profiles conform (6.3.1)."""
    return (len(one[0]) == len(other[0]) and match(one[1], other[1])
            and all(a[:2] == b[:2] and match(a[2], b[2]) for a, b in zip(one[0], other[0])))


def entities_of(item: Node, kind: str) -> list[tuple[Entity, Identifier]]:
    """What a declaration declares; objects that are no constants are of that kind."""
    if isinstance(item, Objects):
        found = "constant" if item.is_constant else kind
        return [(Entity(found, name.text, name.place, item.stop), name) for name in item.names]
    if isinstance(item, Parameter):
        return [(Entity("parameter", name.text, name.place, item.stop, mode=item.mode), name) for name in item.names]
    if isinstance(item, Protected):
        kind = "protected type" if item.is_type else "protected"
        return [(Entity(kind, item.name.text, item.name.place, item.opening), item.name)]
    if isinstance(item, Operations):  # from behind its profile on it hides what is outside (8.2)
        start = item.aspects[0].place if item.aspects else item.stop
        return [(Entity(item.kind, item.name.text, start, item.stop), item.name)]
    if isinstance(item, (Subtype, Task)):
        kind = "subtype" if isinstance(item, Subtype) else "task"
        return [(Entity(kind, item.name.text, item.name.place, item.stop), item.name)]
    return []


class Bodies(Uses):
    def __init__(self, scope: Scope) -> None:
        super().__init__(scope)
        self.profiles: dict[Entity, Profile] = {}  # of operations

    def declare_all(self, members: Members, items: Iterable[Node], kind: str, owner: Entity | None = None, is_hidden: bool = False) -> None:
        """Adds what these declarations declare to a region, and tells each name that is there already."""
        for item in items:
            for entity, name in entities_of(item, kind):
                entity.owner, entity.is_hidden = owner, is_hidden
                self.entities[name.place] = entity
                if not declare(members, entity):
                    self.tell(name.place, "Duplicate")
                    entity.has_body = True  # nothing more is asked of it
                if isinstance(item, Protected):
                    self.declare_all(entity.members, item.shown, "component", entity)
                    self.declare_all(entity.members, item.hidden, "component", entity, True)

    def missing_bodies(self, items: list[Node]) -> None:
        """Each protected unit, each operation of one and each task has a body."""
        for item in items:
            if isinstance(item, (Protected, Task)) and not self.entities[item.name.place].has_body:
                self.tell(item.place, "WrongKind")
            if isinstance(item, Protected):
                for member in item.shown + item.hidden:
                    if isinstance(member, Operations) and not self.entities[member.name.place].has_body:
                        self.tell(member.place, "WrongKind")

    def typed(self, item: Objects) -> None:
        """A constant, a component or a variable."""
        self.mark(item.mark)
        self.range(item.range)
        if item.value:
            self.expression(item.value)

    def profile(self, parameters: list[Parameter], result: Name | None, members: Members | None = None) -> Profile:
        members = {} if members is None else members
        self.declare_all(members, parameters, "")
        found = []
        with self.region(members, None):
            for parameter in parameters:
                meaning = self.mark(parameter.mark)
                found += [(folded(name.text), parameter.mode, meaning) for name in parameter.names]
            return found, self.mark(result)

    def completed(self, name: Identifier, members: Members, *kinds: str) -> Entity | None:
        """The declaration in this region of which a body of that name is, best of its kind; else a fault is told."""
        others = members.get(folded(name.text), [])
        before = [entity for entity in others if entity.seen <= name.place]
        if not before:
            self.tell(name.place, "NotVisible" if others else "Unknown")
            return None
        fitting = [entity for entity in before if entity.kind in kinds and not (entity.kind == "protected" and entity.owner)]
        found = (fitting or before)[0]
        if found.has_body:
            self.tell(name.place, "Duplicate")
        found.has_body = True
        if not fitting:
            self.tell(name.place, "WrongKind")
            return None
        return found

    def task_body(self, item: TaskBody) -> None:
        entity = self.completed(item.name, self.scope.unit.members, "task")
        self.block(item.block, {}, entity, item.name)

    def protected_body(self, item: ProtectedBody) -> None:
        entity = self.completed(item.name, self.scope.unit.members, "protected", "protected type")
        with self.region(entity.members if entity else {}, entity):
            for body in item.bodies:
                self.operation_body(body, entity)
        self.ended(item.end, item.name)

    def operation_body(self, item: OperationBody, unit: Entity | None) -> None:
        entity = self.completed(item.name, unit.members, item.kind) if unit else None
        members: Members = {}
        found = self.profile(item.parameters, item.result, members)
        declared = self.profiles.get(entity) if entity else None
        if entity and (declared is None or not conform(found, declared) or any(mark is None for _, _, mark in found[0])):
            self.tell(item.name.place, "WrongKind")
        if item.barrier:
            with self.region(dict(members), entity):
                self.expression(item.barrier)
        self.block(item.block, members, entity, item.name)

    def block(self, item: Block, members: Members, owner: Entity | None, name: Identifier) -> None:
        """Declarations and statements; the members are the parameters so far."""
        self.declare_all(members, item.locals, "variable")
        with self.region(members, owner):
            for local in item.locals:
                if isinstance(local, Objects):
                    self.typed(local)
                elif isinstance(local, Pragma):
                    self.pragma(local, None)
                elif isinstance(local, Protected):
                    self.protected(local)
            self.statements(item.statements)
            for handler in item.handlers:
                self.handler(handler)
        self.missing_bodies(item.locals)
        self.ended(item.end, name)

    def handler(self, item: Handler) -> None:
        for choice in item.choices:
            if choice:
                self.lookup(choice, "exception")
        self.is_handler = True
        self.statements(item.statements)
        self.is_handler = False
