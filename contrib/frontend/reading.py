"""Reads programs and tasks, with a refusal that names the line."""
import itertools
from typing import Callable, Dict, List, NoReturn, Optional, Tuple, TypeVar

from . import trees
from .tokens import Refusal, Token, tokens_of
from .trees import Block, Condition, Expression, Front, Program, Statement, Task

RESERVED = frozenset(
    "var array output shared base variant_a variant_b candidate skip if else while true false"
    " assume".split()
)
COMPARISONS = ("==", "!=", "<", "<=", ">", ">=")
MOST_OPEN = 64
MOST_OPERATORS = 63

Tree = TypeVar("Tree")


class Reader:
    """Goes through the tokens of one text. Each name is looked up where it is used."""

    def __init__(self, text: str):
        self.text = text
        self.tokens = tokens_of(text)
        self.next = 0
        self.open = 0
        self.sorts: Dict[str, str] = {}

    # tokens

    @property
    def token(self) -> Token:
        return self.tokens[self.next]

    def at(self, *texts: str) -> bool:
        return self.token.text in texts and self.token.kind != "end"

    def refuse(self, message: str) -> NoReturn:
        raise Refusal(message, self.text, self.token.place)

    def expected(self, what: str) -> NoReturn:
        found = "`%s`" % self.token.text if self.token.text else "the end of the text"
        self.refuse("expected %s, found %s" % (what, found))

    def take(self, *texts: str) -> str:
        """The next token, which is one of these."""
        if not self.at(*texts):
            self.expected(" or ".join("`%s`" % text for text in texts))
        self.next += 1
        return self.tokens[self.next - 1].text

    def opening(self, sign: str) -> None:
        if self.open == MOST_OPEN and self.at(sign):
            self.refuse("more than 64 of ( [ { are open")
        self.take(sign)
        self.open += 1

    def closing(self, sign: str) -> None:
        self.take(sign)
        self.open -= 1

    def end(self) -> None:
        if self.token.kind != "end":
            self.expected("the end of the text")

    def new_name(self) -> str:
        if self.token.kind != "word" or self.token.text in RESERVED:
            self.expected("a name")
        return self.take(self.token.text)

    def used_name(self, sort: str) -> str:
        """A name that is declared with the sort that it stands with."""
        if self.token.kind == "word" and self.token.text not in RESERVED:
            known = self.sorts.get(self.token.text)
            if known is None:
                self.refuse("`%s` isn't declared" % self.token.text)
            if known != sort:
                self.refuse("`%s` is declared as `%s`" % (self.token.text, known))
        return self.new_name()

    # the front

    def front(self) -> Front:
        while self.at("var", "array"):
            self.declaration()
        if not self.at("output"):
            self.expected("`var`, `array` or `output`")
        outputs = self.outputs()
        assumed = None
        if self.at("assume"):
            self.take("assume")
            assumed = self.condition()
            self.take(";")
        return Front(self.sorts, outputs, assumed)

    def declaration(self) -> None:
        sort = self.take("var", "array")
        while True:
            if self.token.text in self.sorts:
                self.refuse("`%s` is declared twice" % self.token.text)
            if len(self.sorts) == trees.MOST_NAMES:
                self.refuse("more than 200 names are declared")
            self.sorts[self.new_name()] = sort
            if self.take(",", ";") == ";":
                return

    def outputs(self) -> Tuple[str, ...]:
        self.take("output")
        names: List[str] = []
        while True:
            if self.token.text in names:
                self.refuse("`%s` is an output twice" % self.token.text)
            names.append(self.used_name(self.sorts.get(self.token.text, "var")))
            if self.take(",", ";") == ";":
                return tuple(names)

    # statements

    def block(self, holes: bool) -> Block:
        self.opening("{")
        statements = []
        while not self.at("}"):
            statements.append(self.statement(holes))
        self.closing("}")
        return tuple(statements)

    def statement(self, holes: bool) -> Statement:
        if self.at("skip"):
            self.take("skip")
            self.take(";")
            return trees.Skip()
        if self.at("if"):
            return self.branching(holes)
        if self.at("while"):
            self.take("while")
            guard = self.guard()
            return trees.While(guard, self.block(holes))
        if self.at("?"):
            if not holes:
                self.refuse("a hole can't stand here")
            number = self.hole()
            self.take(";")
            return trees.Hole(number)
        if self.token.kind != "word" or self.token.text in RESERVED:
            self.expected("a statement")
        return self.assignment()

    def branching(self, holes: bool) -> Statement:
        self.take("if")
        guard = self.guard()
        then = self.block(holes)
        self.take("else")
        return trees.If(guard, then, self.block(holes))

    def assignment(self) -> Statement:
        following = self.tokens[self.next + 1].text
        if following == "[":
            array = self.used_name("array")
            index = self.index()
            self.take("=")
            statement: Statement = trees.Put(array, index, self.expression())
        else:
            name = self.used_name("var")
            self.take("=")
            statement = trees.Assign(name, self.expression())
        self.take(";")
        return statement

    def hole(self) -> int:
        self.take("?")
        if self.token.kind != "number" or not 1 <= int(self.token.text) <= trees.LAST_HOLE:
            self.expected("a hole's number, from 1 to 999")
        return int(self.take(self.token.text))

    def guard(self) -> Condition:
        self.opening("(")
        guard = self.condition()
        self.closing(")")
        return guard

    # expressions and conditions

    def index(self) -> Expression:
        self.opening("[")
        index = self.expression()
        self.closing("]")
        return index

    def chain(self, signs: Tuple[str, ...], part: Callable[[], Tree],
              joined: Callable[[str, Tree, Tree], Tree]) -> Tree:
        """Parts between signs, of which the left ones belong together."""
        left = part()
        for count in itertools.count(1):
            if not self.at(*signs):
                break
            if count > MOST_OPERATORS:
                self.refuse("more than 63 operators in one chain")
            left = joined(self.take(*signs), left, part())
        return left

    def expression(self) -> Expression:
        return self.chain(("+", "-"), self.product, trees.Operation)

    def product(self) -> Expression:
        return self.chain(("*",), self.unary, trees.Operation)

    def unary(self) -> Expression:
        if self.at("-"):
            self.take("-")
            return trees.Negation(self.atom())
        return self.atom()

    def atom(self) -> Expression:
        if self.token.kind == "number":
            return trees.Number(int(self.take(self.token.text)))
        if self.at("("):
            self.opening("(")
            inner = self.expression()
            self.closing(")")
            return inner
        if self.token.kind != "word" or self.token.text in RESERVED:
            self.expected("an expression")
        if self.tokens[self.next + 1].text == "[":
            array = self.used_name("array")
            return trees.Read(array, self.index())
        return trees.Name(self.used_name("var"))

    def condition(self) -> Condition:
        return self.chain(("||",), self.conjunction, trees.Junction)

    def conjunction(self) -> Condition:
        return self.chain(("&&",), self.literal, trees.Junction)

    def literal(self) -> Condition:
        if self.at("!"):
            self.take("!")
            return trees.Contrary(self.condition_atom())
        return self.condition_atom()

    def condition_atom(self) -> Condition:
        if self.at("true", "false"):
            return trees.Truth(self.take("true", "false") == "true")
        if self.at("["):
            self.opening("[")
            inner = self.condition()
            self.closing("]")
            return inner
        left = self.expression()
        if not self.at(*COMPARISONS):
            self.expected("a comparison")
        return trees.Comparison(self.take(*COMPARISONS), left, self.expression())

    # whole texts

    def program(self) -> Program:
        front = self.front()
        if self.at("shared"):
            self.take("shared")
            body = self.block(holes=False)
        else:
            statements = []
            while self.token.kind != "end":
                statements.append(self.statement(holes=False))
            body = tuple(statements)
        self.end()
        return Program(front, body)

    def task(self) -> Task:
        front = self.front()
        self.take("shared")
        shared = self.block(holes=True)
        wanted = [s.number for s in trees.all_statements(shared) if isinstance(s, trees.Hole)]
        if len(set(wanted)) < len(wanted):
            raise Refusal("the shared program has a hole twice")
        fillings = tuple(self.filling(section, wanted) for section in trees.SECTIONS)
        self.end()
        return Task(front, shared, fillings)

    def filling(self, section: str, wanted: List[int]) -> trees.Filling:
        self.take(section)
        self.opening("{")
        found: trees.Filling = {}
        while self.at("?"):
            number = self.hole()
            if number in found:
                self.refuse("%s has hole %d twice" % (section, number))
            if number not in wanted:
                self.refuse("the shared program has no hole %d" % number)
            found[number] = self.block(holes=False)
        for number in wanted:
            if number not in found:
                self.refuse("%s doesn't fill hole %d" % (section, number))
        self.closing("}")
        return found


def refuse_large(body: Block, assumed: Optional[Condition]) -> None:
    """Refuses what is larger or deeper than a program of a task may be."""
    for part in (body, () if assumed is None else (assumed,)):
        nodes = 0
        for tree in part:
            nodes += sum(1 for _ in trees.all_nodes(tree))
            if trees.depth_of(tree) > trees.MOST_DEPTH:
                raise Refusal("nested more than 64 deep")
        if nodes > trees.MOST_NODES:
            raise Refusal("more than 20,000 nodes")


def read_program(text: str) -> Program:
    """The program that a text spells."""
    program = Reader(text).program()
    refuse_large(program.body, program.front.assumed)
    return program


def read_task(text: str) -> Task:
    """The task that a text spells."""
    task = Reader(text).task()
    for program in task.programs():
        refuse_large(program.body, program.front.assumed)
    return task


def text_of(data: bytes) -> str:
    """Bytes as a text. Comments may hold any bytes, so one that is no UTF-8 is kept as it is."""
    if len(data) > trees.LARGEST_TEXT:
        raise Refusal("more than 1,048,576 bytes")
    return data.decode("utf-8", "surrogateescape")
