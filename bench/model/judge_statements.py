"""Reading the statements of a unit text into its tree."""
from judge_expressions import MOST_OPEN, ExpressionReader
from judge_tree import (Abort, Accept, Alternative, Arm, Assignment, Call, Case, Choice, Delay, Exit, Expression, If, Loop, Named, Node,
                        Null, Raise, Range, Requeue, Return, Select)

STATEMENTS = frozenset("null if case while for loop exit return raise delay abort requeue accept select name".split())


class StatementReader(ExpressionReader):
    def statements(self) -> list[Node]:
        found = [self.statement()]
        while self.see(*STATEMENTS):
            found.append(self.statement())
        return found

    def statement(self) -> Node:
        word = self.word
        if word.kind not in STATEMENTS:
            self.refuse()
        if self.statements_open == MOST_OPEN:
            self.refuse("TooDeep")
        self.statements_open += 1
        found = getattr(self, f"{word.kind}_statement")(word.place)
        self.statements_open -= 1
        return found

    def null_statement(self, place: int) -> Null:
        self.take("null", ";")
        return Null(place)

    def name_statement(self, place: int) -> Assignment | Call:
        name = self.name()
        found = Assignment(place, name, self.expression()) if self.took(":=") else Call(place, name, self.listed(",", self.expression))
        self.take(";")
        return found

    def if_statement(self, place: int) -> If:
        arms = []
        while self.see("if", "elsif"):
            word = self.next()
            condition = self.expression()
            self.take("then")
            arms.append(Arm(word.place, condition, self.statements()))
        otherwise = self.statements() if self.took("else") else []
        self.take("end", "if", ";")
        return If(place, arms, otherwise)

    def case_statement(self, place: int) -> Case:
        self.take("case")
        selector, alternatives = self.expression(), []
        self.take("is")
        while self.see("when"):
            word = self.next()
            choices = self.several("|", self.choice)
            self.take("=>")
            alternatives.append(Alternative(word.place, choices, self.statements()))
        self.take("end", "case", ";")
        return Case(place, selector, alternatives)

    def choice(self) -> Choice:
        place = self.word.place
        if self.took("others"):
            return Choice(place, None, None)
        low = self.expression()
        return Choice(place, low, self.expression() if self.took("..") else None)

    def looped(self) -> tuple[int, list[Node]]:
        start = self.take("loop")
        statements = self.statements()
        self.take("end", "loop", ";")
        return start, statements

    def loop_statement(self, place: int) -> Loop:
        return Loop(place, None, None, None, None, *self.looped())

    def while_statement(self, place: int) -> Loop:
        self.take("while")
        condition = self.expression()
        return Loop(place, condition, None, None, None, *self.looped())

    def for_statement(self, place: int) -> Loop:
        self.take("for")
        parameter = self.identifier()
        self.take("in")
        self.took("reverse")
        over: Expression | Range = self.expression()
        mark = None
        if isinstance(over, Named) and self.see("range"):
            mark, over = over.name, self.range()
        elif self.took(".."):
            over = Range(over.place, over, self.expression())
        return Loop(place, None, parameter, over, mark, *self.looped())

    def exit_statement(self, place: int) -> Exit:
        self.take("exit")
        condition = self.expression() if self.took("when") else None
        self.take(";")
        return Exit(place, condition)

    def return_statement(self, place: int) -> Return:
        self.take("return")
        value = None if self.see(";") else self.expression()
        self.take(";")
        return Return(place, value)

    def raise_statement(self, place: int) -> Raise:
        self.take("raise")
        name = self.name() if self.see("name") else None
        self.take(";")
        return Raise(place, name)

    def delay_statement(self, place: int) -> Delay:
        self.take("delay")
        is_until = self.took("until")
        value = self.expression()
        self.take(";")
        return Delay(place, is_until, value)

    def abort_statement(self, place: int) -> Abort:
        self.take("abort")
        names = self.names()
        self.take(";")
        return Abort(place, names)

    def requeue_statement(self, place: int) -> Requeue:
        self.take("requeue")
        name = self.name()
        if self.took("with"):
            self.take("abort")
        self.take(";")
        return Requeue(place, name)

    def accept_statement(self, place: int) -> Accept:
        self.take("accept")
        name, parameters, statements, end = self.identifier(), self.parameters(), [], None
        if self.took("do"):
            statements = self.statements()
            self.take("end")
            end = self.identifier() if self.see("name") else None
        self.take(";")
        return Accept(place, name, parameters, statements, end)

    def select_statement(self, place: int) -> Select:
        self.take("select")
        arms = self.several("or", self.arm)
        otherwise = self.statements() if self.took("else") else []
        aborted = []
        if self.took("then"):
            self.take("abort")
            aborted = self.statements()
        self.take("end", "select", ";")
        return Select(place, arms, otherwise, aborted)

    def arm(self) -> Arm:
        place, condition = self.word.place, None
        if self.took("when"):
            condition = self.expression()
            self.take("=>")
        if self.took("terminate"):
            self.take(";")
            return Arm(place, condition, [])
        return Arm(place, condition, self.statements())
