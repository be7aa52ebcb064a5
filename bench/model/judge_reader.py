"""Reading a whole unit text into its tree."""
from collections.abc import Callable

from grammar_words import END, words_of_text
from judge_statements import StatementReader
from judge_tree import Expression, Identifier, Name, Node
from judge_tree_declarations import (Argument, Aspect, Block, Context, Handler, Objects, OperationBody, Operations, Pragma, Protected,
                                     ProtectedBody, Subtype, Task, TaskBody, Text)

OPERATIONS = ("function", "procedure", "entry")


class TextReader(StatementReader):
    def text(self) -> Text:
        contexts = []
        while self.see("pragma", "with", "use"):
            contexts.append(self.pragma() if self.see("pragma") else self.context())
        place, name = self.take("package"), self.identifier()
        self.take("is")
        declarations = self.until("end", self.declaration)
        end = self.ended()
        self.take("package", "body")
        body_name = self.identifier()
        self.take("is")
        bodies = self.until("end", self.body_or_declaration)
        body_end = self.ended()
        self.take(END)
        return Text(place, contexts, name, declarations, end, body_name, bodies, body_end)

    def until(self, kind: str, read: Callable[[], Node]) -> list[Node]:
        """What stands before a word of this kind."""
        found = []
        while not self.see(kind):
            found.append(read())
        return found

    def ended(self) -> Identifier | None:
        """`end` and a semicolon; the name between them, if any."""
        self.take("end")
        end = self.identifier() if self.see("name") else None
        self.take(";")
        return end

    def context(self) -> Context:
        word = self.next()
        kind = "use type" if word.kind == "use" and self.took("type") else word.kind
        names = self.names()
        self.take(";")
        return Context(word.place, kind, names)

    def pragma(self) -> Pragma:
        place, name, arguments = self.take("pragma"), self.identifier(), self.listed(",", self.pragma_argument)
        self.take(";")
        return Pragma(place, name, arguments)

    def pragma_argument(self) -> Argument:
        if self.see("name") and self.see("=>", ahead=1):
            self.at += 2
        return Argument(self.word.place, self.expression())

    def body_or_declaration(self) -> Node:
        if self.see("protected", "task") and self.see("body", ahead=1):
            return self.protected_body() if self.see("protected") else self.task_body()
        return self.declaration()

    def declaration(self) -> Node:
        """A declaration of a package."""
        return self.common() or (self.subtype() if self.see("subtype") else self.objects())

    def common(self) -> Pragma | Protected | Task | None:
        """A pragma, a protected unit or a task, where one stands."""
        readers = {"pragma": self.pragma, "protected": self.protected, "task": self.task}
        return readers[self.word.kind]() if self.word.kind in readers else None

    def subtype(self) -> Subtype:
        place, name = self.take("subtype"), self.identifier()
        self.take("is")
        return Subtype(place, name, self.name(), self.range(), self.take(";"))

    def objects(self) -> Objects:
        """Objects, constants and named numbers of a package."""
        place, names = self.word.place, self.identifiers()
        self.take(":")
        if not self.took("constant"):
            return Objects(place, names, False, self.name(), None, None, self.take(";"))
        mark = self.name() if self.see("name") else None
        self.take(":=")
        return Objects(place, names, True, mark, None, self.expression(), self.take(";"))

    def local(self) -> Node:
        """A declaration of a block."""
        return self.common() or self.scalars(may_be_constant=True)

    def component(self) -> Objects:
        return self.scalars(may_be_constant=False)

    def scalars(self, may_be_constant: bool) -> Objects:
        """Components or local objects: a mark, at times with a range and a value."""
        place, names = self.word.place, self.identifiers()
        self.take(":")
        is_constant = may_be_constant and self.took("constant")
        mark, bounds = self.name(), self.range()
        value = self.expression() if self.took(":=") else None
        return Objects(place, names, is_constant, mark, bounds, value, self.take(";"))

    def aspects(self) -> list[Aspect]:
        return self.several(",", self.aspect) if self.took("with") else []

    def aspect(self) -> Aspect:
        name = self.identifier()
        return Aspect(name.place, name, self.expression() if self.took("=>") else None)

    def protected(self) -> Protected:
        place, is_type, name = self.take("protected"), self.took("type"), self.identifier()
        opening, aspects = self.word.place, self.aspects()
        self.take("is")
        shown = self.members(*OPERATIONS)
        hidden = self.members(*OPERATIONS, "name") if self.took("private") else []
        return Protected(place, is_type, name, aspects, opening, shown, hidden, self.ended())

    def members(self, *kinds: str) -> list[Node]:
        """Pragmas, and operations and components that begin with these kinds of words."""
        found = []
        while self.see("pragma", *kinds):
            found.append(self.pragma() if self.see("pragma") else self.component() if self.see("name") else self.operation())
        return found

    def operation(self) -> Operations:
        word = self.next()
        name, parameters, result = self.identifier(), self.parameters(), self.result(word.kind)
        aspects = self.aspects() if word.kind == "procedure" else []
        return Operations(word.place, word.kind, name, parameters, result, aspects, self.take(";"))

    def result(self, kind: str) -> Name | None:
        """The mark of what a function returns."""
        if kind != "function":
            return None
        self.take("return")
        return self.name()

    def task(self) -> Task:
        place, name, aspects = self.take("task"), self.identifier(), self.aspects()
        if self.see(";"):
            return Task(place, name, aspects, [], None, self.take(";"))
        self.take("is")
        items, end = self.members("entry"), self.ended()
        return Task(place, name, aspects, items, end, self.words[self.at - 1].place)

    def task_body(self) -> TaskBody:
        place = self.word.place
        self.take("task", "body")
        name = self.identifier()
        self.take("is")
        return TaskBody(place, name, self.block())

    def protected_body(self) -> ProtectedBody:
        place = self.word.place
        self.take("protected", "body")
        name, bodies = self.identifier(), []
        self.take("is")
        while self.see(*OPERATIONS):
            bodies.append(self.operation_body())
        return ProtectedBody(place, name, bodies, self.ended())

    def operation_body(self) -> OperationBody:
        word = self.next()
        name, parameters, result = self.identifier(), self.parameters(), self.result(word.kind)
        barrier = self.barrier() if word.kind == "entry" else None
        self.take("is")
        return OperationBody(word.place, word.kind, name, parameters, result, barrier, self.block())

    def barrier(self) -> Expression:
        self.take("when")
        return self.expression()

    def block(self) -> Block:
        place, found = self.word.place, self.until("begin", self.local)
        self.take("begin")
        statements = self.statements()
        handlers = self.handlers() if self.took("exception") else []
        return Block(place, found, statements, handlers, self.ended())

    def handlers(self) -> list[Handler]:
        found = [self.handler()]
        while self.see("when"):
            found.append(self.handler())
        return found

    def handler(self) -> Handler:
        place = self.take("when")
        choices = self.several("|", lambda: None if self.took("others") else self.name())
        self.take("=>")
        return Handler(place, choices, self.statements())


def read_text(text: str) -> Text:
    """The tree of a unit text; raises TextFault at the first fault of words or of the grammar."""
    return TextReader(words_of_text(text)).text()
