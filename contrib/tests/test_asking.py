"""What is asked before an answer is believed."""
import os

from frontend.asking import Answer, Settings, Version, judged
from frontend.making import checked_text, copy_texts
from frontend.printing import program_text
from frontend.reading import read_program
from frontend.trees import COPIES

from . import merges
from .support import Folder

FRONTS = ("var x;\noutput x;\n", "var x, a;\noutput x;\n", "array b;\nvar x;\noutput b;\n",
          "var c, x;\noutput c;\n")


class Copies(Folder):
    def versions(self, settings: Settings):
        return [Version(name, "p.prog", text.encode("ascii"))
                for name, text in zip(settings.names, (*merges.ACCEPTED, merges.MERGED))]

    def judged(self, lies: str):
        """The verdict over a program that accepts all, and lies about one copy."""
        program = self.stand_in(0, "Accepted\n", "a proof", lies=lies)["SAFEMERGE"]
        settings = Settings(program=program)
        return judged(self.versions(settings), self.folder, settings)

    def test_the_four_programs_are_asked_for(self) -> None:
        self.assertEqual(self.judged("")[1], "Accepted\n")
        for copy, name in zip(COPIES, Settings().names):
            verdict, text = self.judged(copy)
            self.assertIs(verdict.answer, Answer.UNKNOWN, copy)
            self.assertEqual(text, "Unknown: not asked\na fault of this tool: the program reads"
                             " another copy of %s than the file has\n" % name)

    def test_a_program_that_prints_no_copies_is_not_asked(self) -> None:
        name = self.write("older", "#!/bin/sh\n[ $# = 2 ] && exec cat \"$2\"\n"
                          "echo 'Usage print'; exit 4\n")
        os.chmod(name, 0o755)
        settings = Settings(program=name)
        verdict, text = judged(self.versions(settings), self.folder, settings)
        self.assertIs(verdict.answer, Answer.UNKNOWN)
        self.assertEqual(text, "Unknown: not asked\nsafemerge print --copy base: status 4 Usage"
                         " print\n")

    def test_a_copy_has_the_declarations_and_outputs_of_all(self) -> None:
        programs = [read_program(front + "assume x < 3;\nx = %d;\n" % place)
                    for place, front in enumerate(FRONTS)]
        checked_text(programs)
        texts = copy_texts(programs)
        for place, text in enumerate(texts):
            self.assertEqual(text, "var x;\nvar a;\narray b;\nvar c;\noutput x, b, c;\nshared {\n"
                             "  x = %d;\n}\n" % place)
            self.assertEqual(program_text(read_program(text)), text)
