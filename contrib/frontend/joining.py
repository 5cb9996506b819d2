"""One front out of those of four programs."""
from typing import Dict, Sequence

from . import trees
from .tokens import Refusal
from .trees import Front


def joined_front(fronts: Sequence[Front]) -> Front:
    """The base's declarations and outputs, and then what A, B and the candidate have besides.

    Each program has declared its own names: one that a side dropped isn't given back to it here.
    More outputs ask more of the merge, and a name that a version doesn't declare keeps its start
    value there.
    """
    sorts: Dict[str, str] = {}
    for letter, front in zip(trees.LETTERS, fronts):
        for name, sort in front.sorts.items():
            if sorts.setdefault(name, sort) != sort:
                raise Refusal("%s declares `%s` as `%s`, another version as `%s`" % (
                    letter, name, sort, sorts[name]))
    if len(sorts) > trees.MOST_NAMES:
        raise Refusal("the four versions together declare more than 200 names")
    for letter, front in zip(trees.LETTERS, fronts):
        if front.assumed != fronts[0].assumed:
            raise Refusal("%s doesn't assume what the base does" % letter)
    outputs = dict.fromkeys(name for front in fronts for name in front.outputs)
    return Front(sorts, tuple(outputs), fronts[0].assumed)
