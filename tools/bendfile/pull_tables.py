"""Tables of a whole pull: its steps, and how the loads go over them."""

from . import input_warnings, numbers, states, tables
from .states import usable
from .tables import counted, headline, table, unit

COLUMNS = 8


def show(pull, text=numbers.short, highlight=str):
    """The steps of a pull, and the free motion of each row over them."""
    out = [f"A pull of {counted(len(pull.problems), 'step')}, {sum(pull.sizes)} bytes\n\n"]
    header, lines = ["step", "<title", "rows", "coordinates", "bytes", "free bytes"], []
    for i, (problem, size) in enumerate(zip(pull.problems, pull.sizes), 1):
        counts = (problem.rows, len(problem.motion), size, len(problem.before))
        lines.append([str(i), problem.labels.title or "-", *map(str, counts)])
    out.append(table(header, lines))
    out.append(f"\n{unit('free motion', pull.unit('motion_unit'))} of each row over the pull\n")
    out.append(_over(pull, lambda step, row: text(pull.problems[step].free_motion[row])))
    for i, problem in enumerate(pull.problems, 1):
        out.extend(f"\n{highlight(f'Step {i}: input, {doubt}.')}\n" for doubt in input_warnings.of_input(problem))
    return "".join(out)


def answer_table(pull, answers, text=numbers.short, highlight=str):
    """The answers of a pull: how each step ended, and the load of each row over the pull."""
    out = [f"A pull of {counted(len(pull.problems), 'step')}\n\n"]
    header = ["step", "<title", "<outcome", "sweeps", "passes", "residual", "<states"]
    out.append(table(header, [_line(i, p, a) for i, (p, a) in enumerate(zip(pull.problems, answers), 1)]))
    if any(letter(a, p, i).islower() for p, a in zip(pull.problems, answers) for i in range(len(a.states))):
        out.append("A small letter: the row stopped there, or is near its bound and not on it.\n")
    out.append(f"\n{unit('load', pull.unit('load_unit'))} of each row over the pull\n")
    out.append(_over(pull, lambda step, row: load_text(answers[step], row, text)))
    out.extend(f"\n{highlight(note)}\n" for note in notes(pull, answers))
    return "".join(out)


def notes(pull, answers):
    """What a reader must know before using the numbers, step by step."""
    found = []
    for step, (problem, answer) in enumerate(zip(pull.problems, answers), 1):
        told = [tables.headline(answer)] if answer.outcome == "refused" else tables.notes(answer, problem)
        found += [f"Step {step}: {note}" for note in told]
    return found


def load_text(answer, row, text):
    """A load in the table. What is no load of the rig stands in brackets; a refused step has none."""
    if answer.outcome == "refused":
        return "-"
    shown = text(answer.loads[row])
    return shown if usable(answer) and not numbers.is_nan(answer.loads[row]) else f"({shown})"


def _line(number, problem, answer):
    title = problem.labels.title or "-"
    if answer.outcome == "refused":
        return [str(number), title, f"refused {answer.number}", "-", "-", "-", "-"]
    ended = f"infeasible ({answer.cause})" if answer.outcome == "infeasible" else headline(answer, problem)
    counts = [str(answer.sweeps), str(answer.passes), numbers.short(answer.residual)]
    return [str(number), title, ended, *counts, "".join(letter(answer, problem, i) for i in range(problem.rows)) or "-"]


def letter(answer, problem, row):
    """The state's letter; small where the row only stopped there or is only near its bound."""
    shown = answer.states[row]
    return shown if states.mark(answer, problem, row) == shown else shown.lower()


def _over(pull, cell):
    """One line per step and one column per row, a few columns at a time, so that a line fits a screen."""
    names = pull.names()
    places = {name: pull.rows(name) for name in names}
    shown = []
    for at in range(0, len(names), COLUMNS):
        part = names[at : at + COLUMNS]
        lines = []
        for step in range(len(pull.problems)):
            rows = [places[name][step] for name in part]
            lines.append([str(step + 1), *("" if row is None else cell(step, row) for row in rows)])
        shown.append(table(["step", *part], lines))
    return "\n".join(shown) or "(no rows)\n"
