"""The words of a script."""

import argparse
import os
import shutil
import sys

import repository


def built():
    """The program that tools/program.sh prints. It is told on standard error which one that is."""
    path = repository.program()
    if not path:
        sys.exit("no program is built; --program names one")
    print(f"program: {os.path.relpath(path)}", file=sys.stderr)
    return path


def path_of(name):
    """The path of a program that is named as in a shell."""
    found = shutil.which(name)
    if not found:
        raise argparse.ArgumentTypeError(f"there is no program {name}")
    return os.path.abspath(found)


class Arguments(argparse.ArgumentParser):
    """The help of a script is its docstring. It takes a program by --program (without that word `program` gives it; a script that
    asks none says None), by --other another one, which it `may` or `must` be given, and each of the numbers by its name."""

    def __init__(self, doc, program=built, other=None, **numbers):
        super().__init__(description=doc, formatter_class=argparse.RawDescriptionHelpFormatter)
        self.program = program
        if program:
            self.add_argument("--program", type=path_of)
        if other:
            self.add_argument("--other", type=path_of, required=other == "must")
        for name, number in numbers.items():
            self.add_argument(f"--{name}", type=type(number), default=number)

    def parse_args(self, *given):
        options = super().parse_args(*given)
        if self.program and not options.program:
            options.program = self.program()
        return options
