#!/usr/bin/env python3
"""Makes the examples again: descriptions, bend files, tables and pictures.

    python3 examples/make.py                                   with the stored answers
    python3 examples/make.py --solver target/bin/bendsolve     with answers from the solver, which are stored
    python3 examples/make.py --out FOLDER                      somewhere else

A step of the pull begins where the step before it ended, so its bend file depends on that step's answer.
"""

import argparse
import csv
import io
import os
import shutil
import subprocess
import sys

import drawing
import rig
from bendfile import answers, as_csv, as_json, binary, chain, describe, exact_tables, numbers, output, picture, validation
from bendfile import pull_picture, pull_tables, tables
from bendfile import pull as pull_file
from bendfile.problem import Labels

HERE = os.path.dirname(os.path.abspath(__file__))
RAM = 160.0
PULL = (40.0, 80.0, 120.0, 160.0, 80.0, 0.0)
NOTE = "Made by examples/make.py from the beam model in examples/rig.py. Loads in N, motions in mm, upwards positive."


class Maker:
    """Writes the files of one example into its folder."""

    def __init__(self, out, solver):
        self.out, self.solver = out, solver

    def put(self, path, data):
        target = os.path.join(self.out, path)
        os.makedirs(os.path.dirname(target), exist_ok=True)
        output.write(target, data if isinstance(data, bytes) else data.encode("utf-8"))

    def step(self, path, description, note=NOTE):
        """Description, bend file and answer of one load step; the problem and its answer."""
        problem = describe.build(description)
        bend = binary.encode(problem)
        self.put(path + ".json", as_json.write(description, note))
        self.put(path + ".bend", bend)
        data = self._answer(path, bend)
        self.put(path + ".answer.txt", data)
        answer = answers.read(data)
        validation.check(answer, problem)
        return problem, answer

    def _answer(self, path, bend):
        if self.solver:
            return subprocess.run([self.solver], input=bend, stdout=subprocess.PIPE, check=True).stdout
        with open(os.path.join(HERE, path + ".answer.txt"), "rb") as stored:
            return stored.read()

    def show(self, path, problem, answer):
        self.put(path + ".table.txt", tables.answer_table(answer, problem))
        self.put(path + ".svg", picture.draw(answer, problem))


def six_pads(maker):
    """A shaft on six felt pads and two friction stops, at rest, then the ram's whole load at once."""
    path = "shaft-six-pads/shaft-six-pads"
    supports = rig.six_pads() + rig.friction_stops()
    step = rig.load_step(f"Shaft on six felt pads and two friction stops, ram {RAM:g} N", supports, RAM)
    problem, answer = maker.step(path, step)
    maker.put(path + ".csv", as_csv.write(step, NOTE))
    maker.show(path, problem, answer)
    maker.put(path + ".exact.txt", exact_tables.show(answer, problem))
    maker.put("shaft-six-pads/set-up.svg", drawing.set_up(supports, RAM))


def pull(maker):
    """The same rig through a pull: the ram goes up in steps and comes back. A friction stop that slid grips the shaft at its new place."""
    supports = rig.six_pads() + rig.friction_stops()
    anchors = {s.name: 0.0 for s in supports if s.friction}
    start, record, steps = None, [], []
    for i, ram in enumerate(PULL, 1):
        step = rig.load_step(f"Pull, step {i} of {len(PULL)}, ram {ram:g} N", supports, ram, anchors, start)
        problem, answer = maker.step(f"pull/step-{i}", step)
        steps.append((problem, answer))
        start = [round(numbers.to_float(load), 4) for load in answer.loads]
        for s, slid in zip(supports, answers.row_sums(problem, answer)):
            if s.friction:
                anchors[s.name] = round(anchors[s.name] + slid, 6)
        record.append([i, f"{ram:g}"] + [numbers.short(load) for load in answer.loads] + ["".join(answer.states)])
    sheet = io.StringIO()
    writer = csv.writer(sheet, lineterminator="\n")
    writer.writerow(["step", "ram (N)"] + [f"{s.name} (N)" for s in supports] + ["states"])
    writer.writerows(record)
    maker.put("pull/loads.csv", sheet.getvalue())
    chained(maker, *zip(*steps))


def chained(maker, problems, found):
    """The pull's steps in one file, with its table and its picture."""
    data = chain.joined([binary.encode(problem) for problem in problems])
    whole = pull_file.read(data)
    maker.put("pull/pull.chain", data)
    maker.put("pull/pull.table.txt", pull_tables.answer_table(whole, found))
    maker.put("pull/pull.svg", pull_picture.draw(whole, found))


def stops_that_fight(maker):
    """Two steel stops at one place, the lower set above where the upper lets the shaft be: 0.3 mm too little room, which no load can make."""
    path = "stops-that-fight/stops-that-fight"
    lower = rig.Support("lower stop", 1000, rig.STEEL, gap=-0.5)
    upper = rig.Support("upper stop", 1000, rig.STEEL, gap=0.2, direction=-1)
    supports = rig.six_pads() + [lower, upper]
    maker.show(path, *maker.step(path, rig.load_step("Two steel stops at one place, 0.3 mm too close", supports, RAM)))


def rounded_sum(maker):
    """One pad whose load is a third: the rounded motion left is 0, the exact one is not."""
    row = {"name": "pad", "kind": "contact", "scale": "1", "start": "0", "free_motion": "-1"}
    step = describe.Description([row], [["3"]], [], "0", Labels("A load of a third", "N", "mm", ["pad"]), describe.LABELS_BEFORE)
    problem, answer = maker.step("rounded-sum/rounded-sum", step, "Made by examples/make.py.")
    maker.put("rounded-sum/rounded-sum.exact.txt", exact_tables.show(answer, problem))


def main(arguments=None):
    parser = argparse.ArgumentParser(description="Makes the examples again.")
    parser.add_argument("--solver", metavar="PROGRAM", help="ask this program instead of the stored answers")
    parser.add_argument("--out", default=HERE, metavar="FOLDER", help="where to write; this folder unless said")
    options = parser.parse_args(arguments)
    solver = shutil.which(options.solver) if options.solver else None
    if options.solver and not solver:
        parser.error(f"{options.solver}: no such program")
    maker = Maker(options.out, solver)
    for example in (six_pads, pull, stops_that_fight, rounded_sum):
        example(maker)


if __name__ == "__main__":
    sys.exit(main())
