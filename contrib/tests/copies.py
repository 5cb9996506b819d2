"""Prints the filled program of a copy, as `safemerge print TASK --copy COPY` does. Of a copy about
which it is to lie it prints another one: copies.py TASK COPY LIES."""
import os
import sys
from dataclasses import replace

sys.path.insert(0, os.path.dirname(os.path.dirname(os.path.abspath(__file__))))

# pylint: disable=wrong-import-position
from frontend.printing import program_text
from frontend.reading import read_task
from frontend.trees import COPIES


def text_of_copy(path: str, copy: str, lies: str) -> str:
    with open(path, encoding="ascii") as file:
        programs = read_task(file.read()).programs()
    place = (COPIES.index(copy) + (copy == lies)) % len(COPIES)
    front = replace(programs[place].front, assumed=None)
    return program_text(replace(programs[place], front=front))


if __name__ == "__main__":
    sys.stdout.write(text_of_copy(*sys.argv[1:]))
