"""What a name means where it stands: regions, hiding, `with` and `use`, expanded names (8.2, 8.3, 8.4, 10.1)."""
from typing import NamedTuple

from judge_library import LIBRARY_NAMES, ROOTS, STANDARD, Entity
from judge_tree import Name
from words import folded

Members = dict[str, list[Entity]]


class NotFound(Exception):
    """A name that means nothing here."""

    def __init__(self, fault: str) -> None:
        super().__init__(fault)
        self.fault = fault


class Region(NamedTuple):
    members: Members
    owner: Entity | None  # whose declaration or body it is


def declared(members: Members, name: str, place: int) -> Entity | None:
    """The last declaration of that name before that place."""
    before = [entity for entity in members.get(name, []) if entity.place <= place]
    if before and before[-1].seen > place:
        raise NotFound("NotVisible")
    return before[-1] if before else None


def selected_in(members: Members, name: str, place: int) -> Entity:
    found = declared(members, name, place)
    if found is None:
        raise NotFound("NotVisible" if name in members else "Unknown")
    return found


class Scope:
    """What is seen at a place of a text: the regions around it, the unit, and what its context names."""

    def __init__(self, unit: Entity, loaded: dict[str, Entity]) -> None:
        self.unit = unit
        self.loaded = loaded  # the units before it
        self.regions: list[Region] = []
        self.withed: set[Entity] = {STANDARD}
        self.used: list[Entity] = []

    def direct(self, name: str, place: int) -> Entity:
        """What an identifier means that stands alone, or before the first point."""
        for region in reversed(self.regions):
            found = declared(region.members, name, place)
            if found:
                return found
        if self.regions and name == folded(self.unit.name):
            return self.unit
        if name in STANDARD.members:
            return STANDARD.members[name][0]
        found = self.root(name)
        if found in self.withed:
            return found
        for unit in self.used:
            for member in unit.members.get(name, []):
                if member.kind != "package" or member in self.withed:
                    return member
        is_later = any(name in region.members for region in self.regions)
        raise NotFound("NotVisible" if is_later or found or name in LIBRARY_NAMES else "Unknown")

    def root(self, name: str) -> Entity | None:
        """The unit of that name that stands on its own, whether a `with` names it or not."""
        if name == "standard":
            return STANDARD
        return ROOTS.members[name][0] if name in ROOTS.members else self.loaded.get(name)

    def selected(self, prefix: Entity, name: str, place: int) -> Entity:
        """What a name behind a point means."""
        if prefix is self.unit:
            return selected_in(prefix.members, name, place)
        if prefix.kind == "package":
            return self.of_library(prefix, name)
        if prefix.kind == "unit":
            return of_loaded(prefix, name)
        for region in self.regions:
            if region.owner is prefix:
                return selected_in(region.members, name, place)
        if prefix.kind in ("protected", "protected type"):
            return self.of_object(prefix, name, place)
        raise NotFound("Unknown")

    def of_library(self, prefix: Entity, name: str) -> Entity:
        if name in prefix.members:
            found = prefix.members[name][0]
            if found.kind == "package" and found not in self.withed:
                raise NotFound("NotVisible")
            return found
        if prefix is STANDARD:  # units that stand on their own are within Standard (10.1.1)
            if name == folded(self.unit.name):
                return self.unit
            found = self.root(name)
            if found:
                if found not in self.withed:
                    raise NotFound("NotVisible")
                return found
        raise NotFound("Unknown")

    def of_object(self, prefix: Entity, name: str, place: int) -> Entity:
        """An operation of a protected object that is named from outside."""
        found = member_of(prefix, name)
        if found is None:
            raise NotFound("Unknown")
        if prefix.kind == "protected type":
            raise NotFound("WrongKind")
        if found.is_hidden:
            raise NotFound("NotVisible")
        return found

    def named(self, name: Name) -> Entity:
        """What a name means."""
        parts = [folded(part) for part in name.parts]
        found = self.direct(parts[0], name.place)
        for part in parts[1:]:
            found = self.selected(found, part, name.place)
        return found


def member_of(target: Entity, name: str) -> Entity | None:
    unit = target.owner or target  # an object of a type has what its type declares
    return unit.members.get(name, [None])[0]


def of_loaded(unit: Entity, name: str) -> Entity:
    """An object of another unit."""
    found = unit.members.get(name, [None])[0]
    if found is None or found.kind not in ("protected", "suspension"):
        raise NotFound("Unknown")
    if found.is_hidden:
        raise NotFound("NotVisible")
    return found


def with_named(scope: Scope, name: Name) -> None:
    """What a `with` names, with the packages around it."""
    parts = [folded(part) for part in name.parts]
    path = [scope.root(parts[0])]
    for part in parts[1:]:
        members = path[-1].members.get(part, [None]) if path[-1] and path[-1].kind == "package" else [None]
        path.append(members[0])
    if any(unit is None or unit.kind not in ("package", "unit") for unit in path):
        raise NotFound("Unknown")
    scope.withed.update(path)
