"""Inputs of a task: their text, and some that are drawn from the numbers that stand in it."""
import json
import random
from typing import Dict, Iterator, List, Union

from . import trees
from .running import Store
from .trees import Task

CELLS = 4


def number_of(value: object) -> int:
    if isinstance(value, bool) or not isinstance(value, (int, str)):
        raise ValueError("a value of an input is a whole number")
    return int(value)


def store_of(text: str) -> Store:
    """The store that an input says."""
    found = json.loads(text)
    if not isinstance(found, dict):
        raise ValueError("an input is an object of JSON")
    store: Store = {}
    for name, value in found.items():
        if isinstance(value, dict):
            store[name] = {int(index): number_of(cell) for index, cell in value.items()}
        else:
            store[name] = number_of(value)
    return store


def text_of(store: Store) -> str:
    """A store as an input, compact, each number as a string."""
    def spelled(value: Union[int, Dict[int, int]]) -> Union[str, Dict[str, str]]:
        if isinstance(value, dict):
            return {str(index): str(cell) for index, cell in value.items() if cell}
        return str(value)

    found = {name: spelled(value) for name, value in store.items()}
    return json.dumps(found, sort_keys=True, separators=(",", ":"))


def literals_of(task: Task) -> List[int]:
    """The numbers of a task, with those beside them, and all of these negated."""
    values = {0}
    blocks = [task.shared] + [block for filling in task.fillings for block in filling.values()]
    roots: List[object] = [statement for block in blocks for statement in block]
    if task.front.assumed is not None:
        roots.append(task.front.assumed)
    for root in roots:
        for node in trees.all_nodes(root):
            if isinstance(node, trees.Number):
                values.update((node.value, node.value - 1, node.value + 1))
    return sorted(values | {-value for value in values})


def drawn(task: Task, count: int) -> Iterator[Store]:
    """Inputs of the task's numbers and of small ones. About every second value is one that an
    earlier name has, so that guards such as `key == wanted` are entered."""
    draw = random.Random(1)
    literals = literals_of(task)
    for place in range(count):
        pool = literals if place % 4 else list(range(-3, 9))
        earlier: List[int] = []

        def value() -> int:
            values = earlier if earlier and draw.random() < 0.5 else pool
            # not `choice`, which draws otherwise in other versions of Python
            earlier.append(values[int(draw.random() * len(values))])
            return earlier[-1]

        store: Store = {}
        for name, sort in task.front.sorts.items():
            cells = {index: 0 for index in range(CELLS)}
            store[name] = {index: value() for index in cells} if sort == "array" else value()
        yield store
