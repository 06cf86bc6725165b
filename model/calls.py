"""What the makers of case files share: the calls of a run with their answers,
and the two files that they go to."""

import sys


class Calls:
    """Makes calls on a model and keeps their lines and answers."""

    def __init__(self, source, model, answer):
        self.source = source
        self.model = model
        self.answer = answer
        self.calls = []
        self.answers = []

    def ask(self, *fields):
        line = " ".join(str(field) for field in fields)
        self.calls.append(line)
        self.answers.append(self.answer(self.model, line))


def write_files(all_cases):
    """Writes the calls and the answers to the paths on the command line."""
    calls_path, answers_path = sys.argv[1:]
    calls, answers = all_cases()
    for path, lines in ((calls_path, calls), (answers_path, answers)):
        with open(path, "wb") as output:
            output.write("".join(line + "\n" for line in lines).encode("ascii"))
