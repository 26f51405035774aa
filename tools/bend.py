#!/usr/bin/env python3
"""Bend files for people: make one from a description, solve it, and show it and its answer as a table or a picture.

    bend.py solve FILE..                            a description, a bend file or a pull, solved and shown
    bend.py solve FILE.. --picture OUT.svg
    bend.py make INPUT.json -o OUT.bend
    bend.py show FILE..
    bend.py answer ANSWER.txt.. FILE..
    bend.py picture ANSWER.txt.. FILE.. -o OUT.svg
    bend.py exact FILE ANSWER.txt..                 the motions left without rounding
    bend.py chain STEP.bend.. -o PULL               a whole pull in one file, its steps oldest first
    bend.py split PULL -o FOLDER

FILE is a bend file or a pull; several are the steps of a pull. Exit status: 0 fine, 1 input that cannot be taken or output that cannot be
written, 2 wrong usage.
"""

import argparse
import os
import sys

from bendfile import VERSION, as_csv, as_json, binary, chain, describe, exact_tables, input_warnings, inputs, numbers, output
from bendfile import picture, pull, pull_picture, pull_tables, solver, tables
from bendfile.inputs import LARGEST_DESCRIPTION, named
from bendfile.problem import LARGEST_FILE, BadInput, check_scales

READERS = {"json": as_json.read, "csv": as_csv.read}
WRITERS = {"json": as_json.write, "csv": as_csv.write}


def form_of(path):
    """What form a description has by its name, or nothing that is known."""
    return os.path.splitext(path)[1][1:].lower()


def make(options):
    form = options.form or form_of(options.input)
    if form not in READERS:
        options.parser.error(f"{options.input}: is it JSON or CSV? Expected a name that ends in .json or .csv, or --from")
    if options.output != "-" and os.path.realpath(options.input) == os.path.realpath(options.output):
        options.parser.error(f"{options.output}: is the input; expected another name")
    free = inputs.bounded(options.free, LARGEST_FILE, "free bytes") if options.free else None
    problem = described(options.input, form)
    if free is not None:
        problem.before = free
    elif options.labels:
        problem.before = binary.label_bytes(problem.labels)
    if not options.any_scale:
        named(options.input, check_scales, problem)
    made = named(options.input, binary.encode, problem)
    # What the solver would take but nobody means is said on standard error.
    for doubt in input_warnings.of_input(problem):
        report(f"warning: {inputs.shown(options.input)}: {doubt}")
    output.write(options.output, made)


def described(path, form):
    """The problem that a description means."""
    data = inputs.bounded(path, LARGEST_DESCRIPTION, "a description")
    return named(path, lambda: describe.build(READERS[form](data)))


def show(options):
    steps = inputs.pulls(options.files)
    if not steps.whole or options.step is not None:
        problem, size = _chosen(steps, options)
        shown = WRITERS[options.form](describe.texts(problem)) if options.form else tables.show(problem, size, *_look(options))
    elif options.form:
        options.parser.error(f"{options.files[0]}: is a pull; --{options.form} is of one step, so expected --step and its number")
    else:
        shown = named(options.files[0], pull_tables.show, steps, *_look(options))
    output.write(options.output, shown.encode("utf-8"))


def _chosen(steps, options):
    """The problem of the step that is asked for, and how many bytes it has."""
    number = 1 if options.step is None else options.step
    if not 1 <= number <= len(steps.problems):
        raise BadInput(f"{options.files[0]}: --step {number}; expected 1 to {len(steps.problems)}")
    return steps.problems[number - 1], steps.sizes[number - 1]


def chain_(options):
    chain.check_number(len(options.files))
    if os.path.realpath(options.output) in map(os.path.realpath, options.files):
        options.parser.error(f"{options.output}: is one of the steps; expected another name")
    files = [inputs.bend_file(path) for path in options.files]
    output.write(options.output, named(options.output, chain.joined, files, options.free))


def split(options):
    data = inputs.read(options.file, chain.LARGEST_PULL)
    files = named(options.file, chain.cut, data, options.free)
    output.write_folder(options.output, [(f"step-{i:02}.bend", part) for i, part in enumerate(files, 1)])


def answer_(options):
    steps, found = inputs.steps(options.files)
    output.write(options.output, table_of(options, options.files[-1], steps, found).encode("utf-8"))


def table_of(options, name, steps, found):
    """The table of one answer or of a pull's; `name` is the file that a message names."""
    if steps is not None and steps.whole:
        return named(name, pull_tables.answer_table, steps, found, *_look(options))
    return "\n".join(tables.answer_table(answer, steps.problems[0] if steps else None, *_look(options)) for answer in found)


def picture_(options):
    if len(options.files) < 2:
        options.parser.error("expected ANSWER.txt and the bend file or pull that it answers")
    steps, found = inputs.steps(options.files)
    if steps is None and found[0].outcome != "refused":
        options.parser.error("expected ANSWER.txt and the bend file or pull that it answers")
    output.write(options.output, picture_of(options.files, steps, found).encode("utf-8"))


def picture_of(files, steps, found):
    """The picture of one answer or of a pull's."""
    if steps is None or (not steps.whole and found[0].outcome == "refused"):
        raise BadInput(f"{inputs.shown(files[0])}: {tables.headline(found[0])}; there are no loads to draw")
    if steps.whole:
        return named(files[-1], pull_picture.draw, steps, found)
    return picture.draw(found[0], steps.problems[0])


def exact_(options):
    steps, found = inputs.steps([*options.answers, options.file])
    if steps is None:
        raise BadInput(f"{inputs.shown(options.answers[0])}: {tables.headline(found[0])}; there are no loads to add")
    shown = [exact_tables.show(answer, problem, *_look(options)) for answer, problem in zip(found, steps.problems)]
    output.write(options.output, "\n".join(shown).encode("utf-8"))


def solve(options):
    parts = [_to_solve(path) for path in options.files]
    program = solver.found(options.solver)
    solved = [named(path, solver.solve, program, problem) for path, part in zip(options.files, parts) for problem in part.problems]
    steps, found = pull.together(parts), [answer for _, answer in solved]
    # Table and picture are made before anything is written.
    shown = table_of(options, options.files[0], steps, found).encode("utf-8")
    drawn = picture_of(options.files, steps, found).encode("utf-8") if options.picture else None
    if options.answers:
        output.write(options.answers, b"".join(data for data, _ in solved))
    if options.picture:
        output.write(options.picture, drawn)
    output.write(options.output, shown)


def _to_solve(path):
    """A description, made into a step in memory; or a bend file, or a pull."""
    if form_of(path) not in READERS:
        return inputs.pulls([path])
    problem = described(path, form_of(path))
    return pull.Pull([problem], [len(named(path, binary.encode, problem))], whole=False)


def _look(options):
    """How numbers and notes are written: six digits or all, and notes red on a terminal that takes colours."""
    text = numbers.exact if options.full else numbers.short
    terminal = options.output == "-" and sys.stdout is not None and sys.stdout.isatty()
    if not terminal or "NO_COLOR" in os.environ or os.environ.get("TERM", "dumb") == "dumb":
        return text, str
    return text, lambda words: f"\x1b[31m{words}\x1b[0m"


def parser():
    top = argparse.ArgumentParser(prog="bend.py", description="Bend files for people.")
    top.add_argument("--version", action="version", version=f"bend.py {VERSION}")
    commands = top.add_subparsers(dest="command", required=True, metavar="COMMAND")
    _solve_options(commands.add_parser("solve", help="solve a description, a bend file or a pull with bendsolve, and show the answer"))
    _make_options(commands.add_parser("make", help="make a bend file from a JSON or CSV description"))
    _show_options(commands.add_parser("show", help="show a bend file as tables, or as a description"))
    _answer_options(commands.add_parser("answer", help="show bendsolve's answer as a table"))
    _picture_options(commands.add_parser("picture", help="draw an answer's loads between their bounds, or a pull's over its steps"))
    _exact_options(commands.add_parser("exact", help="show the motions left without rounding, beside the rounded ones"))
    _chain_options(commands.add_parser("chain", help="put the bend files of a pull into one file"))
    _split_options(commands.add_parser("split", help="cut a pull into its bend files"))
    return top


def _solve_options(command):
    what = "a description (.json or .csv), a bend file or a pull; several are the steps of a pull"
    command.add_argument("files", metavar="FILE", nargs="+", help=what)
    command.add_argument("--picture", metavar="OUT.svg", help="draw the loads as well")
    command.add_argument("--answers", metavar="OUT.txt", help="keep what bendsolve printed")
    command.add_argument("--solver", metavar="PROGRAM", help="another program than target/bin/bendsolve")
    _table_options(command)
    command.set_defaults(call=solve, parser=command)


def _make_options(command):
    command.add_argument("input", metavar="INPUT", help="a description: .json or .csv, or - for standard input")
    command.add_argument("-o", "--output", required=True, metavar="OUT.bend", help="the bend file to write, or -")
    command.add_argument("--from", dest="form", choices=sorted(READERS), help="the description's form, where its name does not say it")
    before = command.add_mutually_exclusive_group()
    before.add_argument("--labels", action="store_true", help="put names and units into the free bytes before the numbers")
    before.add_argument("--free", metavar="FILE", help="put this file's bytes before the numbers")
    command.add_argument("--any-scale", action="store_true", help="also write a scale that the solver refuses")
    command.set_defaults(call=make, parser=command)


def _show_options(command):
    command.add_argument("files", metavar="FILE", nargs="+", help="a bend file or a pull, or -; several are the steps of a pull")
    command.add_argument("--step", type=int, metavar="N", help="one step of a pull, counted from 1, the oldest")
    form = command.add_mutually_exclusive_group()
    form.add_argument("--json", dest="form", action="store_const", const="json", help="the JSON description")
    form.add_argument("--csv", dest="form", action="store_const", const="csv", help="the CSV description")
    _table_options(command)
    command.set_defaults(call=show, parser=command)


def _answer_options(command):
    command.add_argument("files", metavar="FILE", nargs="+", help="what bendsolve printed, or -; then the bend files or the pull that are answered")
    _table_options(command)
    command.set_defaults(call=answer_)


def _picture_options(command):
    command.add_argument("files", metavar="FILE", nargs="+", help="what bendsolve printed, or -; then the bend files or the pull that are answered")
    command.add_argument("-o", "--output", required=True, metavar="OUT.svg", help="the SVG file to write, or -")
    command.set_defaults(call=picture_, parser=command)


def _exact_options(command):
    command.add_argument("file", metavar="FILE", help="a bend file or a pull, or -")
    command.add_argument("answers", metavar="ANSWER.txt", nargs="+", help="what bendsolve printed for it, or -")
    _table_options(command)
    command.set_defaults(call=exact_)


def _table_options(command):
    command.add_argument("--full", action="store_true", help="every digit instead of six")
    command.add_argument("-o", "--output", default="-", metavar="OUT", help="a file to write instead of standard output")


def _chain_options(command):
    command.add_argument("files", metavar="STEP.bend", nargs="+", help="the steps' bend files, oldest first")
    command.add_argument("-o", "--output", required=True, metavar="PULL", help="the chained file to write, or -")
    _free_option(command)
    command.set_defaults(call=chain_, parser=command)


def _split_options(command):
    command.add_argument("file", metavar="PULL", help="a chained bend file, or -")
    command.add_argument("-o", "--output", required=True, metavar="FOLDER", help="a new folder for step-01.bend and so on, oldest first")
    _free_option(command)
    command.set_defaults(call=split)


def _free_option(command):
    command.add_argument("--no-free", dest="free", action="store_false", help="leave out the free bytes, names and units among them")


def report(words):
    """A message on standard error, if there is one."""
    try:
        if sys.stderr is not None:
            print(f"bend.py: {words}", file=sys.stderr, flush=True)
    except OSError:
        pass


def main(arguments=None):
    output.fill_closed_descriptors()
    try:
        options = parser().parse_args(arguments)
        options.call(options)
    except BadInput as wrong:
        report(wrong)
        return 1
    except BrokenPipeError:
        # The reader of standard output has gone; Python would otherwise complain again when it closes it.
        os.dup2(os.open(os.devnull, os.O_WRONLY), sys.stdout.fileno())
        return 1
    except OSError as wrong:
        report(f"standard output: cannot be written: {wrong.strerror}")
        return 1
    except KeyboardInterrupt:
        report("interrupted; nothing more was written")
        return 130
    return 0


if __name__ == "__main__":
    sys.exit(main())
