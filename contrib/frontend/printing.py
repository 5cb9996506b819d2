"""The canonical text of programs and tasks, as `safemerge print` prints it."""
from typing import Iterator, List

from . import trees
from .trees import Block, Condition, Expression, Front, Program, Statement, Task


def expression_text(expression: Expression) -> str:
    if isinstance(expression, trees.Number):
        return str(expression.value)
    if isinstance(expression, trees.Name):
        return expression.name
    if isinstance(expression, trees.Read):
        return "%s[%s]" % (expression.array, expression_text(expression.index))
    if isinstance(expression, trees.Negation):
        return "-" + operand_text(expression.part)
    left, right = operand_text(expression.left), operand_text(expression.right)
    return "%s %s %s" % (left, expression.sign, right)


def operand_text(expression: Expression) -> str:
    text = expression_text(expression)
    bare = isinstance(expression, (trees.Number, trees.Name, trees.Read))
    return text if bare else "(%s)" % text


def condition_text(condition: Condition) -> str:
    if isinstance(condition, trees.Truth):
        return "true" if condition.value else "false"
    if isinstance(condition, trees.Comparison):
        left, right = expression_text(condition.left), expression_text(condition.right)
        return "%s %s %s" % (left, condition.sign, right)
    if isinstance(condition, trees.Contrary):
        return "!" + part_text(condition.part)
    return "%s %s %s" % (part_text(condition.left), condition.sign, part_text(condition.right))


def part_text(condition: Condition) -> str:
    text = condition_text(condition)
    return text if isinstance(condition, (trees.Truth, trees.Comparison)) else "[%s]" % text


def simple_text(statement: Statement) -> str:
    """The one line of a statement without blocks."""
    if isinstance(statement, trees.Skip):
        return "skip;"
    if isinstance(statement, trees.Hole):
        return "?%d;" % statement.number
    if isinstance(statement, trees.Assign):
        return "%s = %s;" % (statement.name, expression_text(statement.value))
    assert isinstance(statement, trees.Put)
    index, value = expression_text(statement.index), expression_text(statement.value)
    return "%s[%s] = %s;" % (statement.array, index, value)


def head_text(statement: Statement) -> str:
    """The first line of an `if` or a `while`."""
    assert isinstance(statement, (trees.If, trees.While))
    word = "if" if isinstance(statement, trees.If) else "while"
    return "%s (%s) {" % (word, condition_text(statement.guard))


def statement_lines(statement: Statement, pad: str) -> Iterator[str]:
    blocks = trees.blocks_of(statement)
    if not blocks:
        yield pad + simple_text(statement)
        return
    yield pad + head_text(statement)
    yield from block_lines(blocks[0], pad + "  ")
    if len(blocks) == 2:
        yield pad + "} else {"
        yield from block_lines(blocks[1], pad + "  ")
    yield pad + "}"


def block_lines(block: Block, pad: str) -> Iterator[str]:
    for statement in block:
        yield from statement_lines(statement, pad)


def front_lines(front: Front) -> List[str]:
    lines = ["%s %s;" % (sort, name) for name, sort in front.sorts.items()]
    lines.append("output %s;" % ", ".join(front.outputs))
    if front.assumed is not None:
        lines.append("assume %s;" % condition_text(front.assumed))
    return lines


def shared_lines(body: Block) -> List[str]:
    return ["shared {", *block_lines(body, "  "), "}"]


def program_text(program: Program) -> str:
    """A program in canonical text, as a front and a shared block."""
    return "\n".join(front_lines(program.front) + shared_lines(program.body)) + "\n"


def task_text(task: Task) -> str:
    lines = front_lines(task.front) + shared_lines(task.shared)
    for section, filling in zip(trees.SECTIONS, task.fillings):
        lines.append(section + " {")
        for number, block in filling.items():
            lines += ["  ?%d {" % number, *block_lines(block, "    "), "  }"]
        lines.append("}")
    return "\n".join(lines) + "\n"
