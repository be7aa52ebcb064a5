"""The shape of a unit text, and what other units see of a unit (9.4, C.3.1, D.1, D.3)."""
from judge_declared import DEFAULT_CEILING, DEFAULT_TASK_PRIORITY, HANDLER_CEILING, Declarations
from judge_library import INTEGER, Entity, Span, declare
from judge_tree import Node
from judge_tree_declarations import Objects, Protected, Task, Text
from shapes import SUSPENSION_OPERATIONS, Actor, Operation, Parameter, Range, Scalar, SharedObject, Unit

OPERATIONS = ("function", "procedure", "entry")


def ranged(span: Span) -> Range:
    """A subtype's range, and no range of Integers where it is a time's."""
    return Range(span.low, span.high) if span.type in ("Integer", "Boolean") else Range(0, 0)


def members_of(unit: Entity) -> list[Entity]:
    return [entity for others in unit.members.values() for entity in others]


def operation_of(entity: Entity) -> Operation:
    parameters = [Parameter(parameter.mode, ranged(parameter.span)) for parameter in entity.parameters]
    kind = entity.kind if entity.line is None else "handler"
    return Operation(kind, entity.name, parameters, ranged(entity.span) if entity.span else None, "open", entity.line)


def protected_object(name: str, unit: Entity, priority: int | None) -> SharedObject:
    scalars = [Scalar(ranged(entity.span), entity.value) for entity in members_of(unit) if entity.kind == "component"]
    operations = [operation_of(entity) for entity in members_of(unit) if entity.kind in OPERATIONS]
    default = HANDLER_CEILING if any(operation.line is not None for operation in operations) else DEFAULT_CEILING
    return SharedObject(name, default if priority is None else priority, scalars, operations)


def shape_of(tree: Text, types: Declarations) -> Unit:
    """The shape that a text without a fault gives."""
    unit = Unit(tree.name.text)
    units: dict[Entity, Node] = {types.entities[item.name.place]: item for item in tree.declarations + tree.bodies if isinstance(item, Protected)}
    for item in tree.declarations + tree.bodies:
        if isinstance(item, Task):
            unit.tasks.append(Actor(item.name.text, "task", unit.name, types.priorities.get(item, DEFAULT_TASK_PRIORITY)))
        elif isinstance(item, Protected) and not item.is_type:
            unit.objects.append(protected_object(item.name.text, types.entities[item.name.place], types.priorities.get(item)))
        elif isinstance(item, Objects) and not item.is_constant:
            for name in item.names:
                kind = types.entities[name.place].owner
                suspension = [Operation("suspension", text) for text in SUSPENSION_OPERATIONS]
                unit.objects.append(protected_object(name.text, kind, types.priorities.get(units[kind])) if kind
                                    else SharedObject(name.text, None, [], suspension))
    return unit


def shown(unit: Entity) -> Entity:
    """What other units see of a unit from a text: its objects, with their operations."""
    found = Entity("unit", unit.name)
    for entity in members_of(unit):
        if entity.kind in ("protected", "suspension"):
            target = Entity(entity.kind, entity.name, is_hidden=entity.is_hidden)
            for member in members_of(entity.owner or entity):
                if member.kind in OPERATIONS:
                    declare(target.members, member)
            declare(found.members, target)
    return found


def shown_of_shape(unit: Unit) -> Entity:
    """What other units see of a unit that is a shape: its values are Integers."""
    found = Entity("unit", unit.name)
    for item in unit.objects:
        target = Entity("suspension" if item.ceiling is None else "protected", item.name)
        for operation in item.operations if item.ceiling is not None else []:
            kind = "procedure" if operation.kind == "handler" else operation.kind
            parameters = [Entity("parameter", "", span=INTEGER, mode=parameter.mode.replace("inout", "in out")) for parameter in operation.parameters]
            declare(target.members, Entity(kind, operation.name, span=INTEGER if operation.result else None, parameters=parameters))
        declare(found.members, target)
    return found
