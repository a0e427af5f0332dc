"""Runs scripts through the port and the original's driver, finds where their answers part, and makes such a script small.

The model's answers come with each generated script and are held against the port's too.
"""

import collections
import os
import shlex
import subprocess
import sys
import tempfile

from generator import script
from model import WRAP, Model, parse

ROOT = os.path.dirname(os.path.dirname(os.path.abspath(__file__)))
DRIVER = os.path.join(ROOT, "target", "oracle", "driver")
# Proves and builds the port, and runs it; and runs what was built.
PROVED, BUILT = "./run calls", "./run --built calls"
PORT = os.environ.get("PORT", PROVED)

# Lines in one run of the port while a script is made small.
LINES_A_RUN = 20000
SECONDS = 900


class Sides:
    """The two programs that answer scripts."""

    def __init__(self, port=PORT, driver=DRIVER):
        self.port = shlex.split(port)
        self.driver = driver

    def make_ready(self):
        """Runs the port once on no script. `./run` proves and builds first: here once, with all the time it takes; what runs then is the built program."""
        try:
            done = subprocess.run(self.port, stdin=subprocess.DEVNULL, stdout=subprocess.DEVNULL, cwd=ROOT, check=False)
        except OSError as why:
            sys.exit("the port's command cannot be run: %s" % why)
        if done.returncode:
            sys.exit("nothing was compared, since the port's command failed: " + " ".join(self.port))
        if self.port == shlex.split(PROVED):
            self.port = shlex.split(BUILT)

    def answers(self, lines):
        """For each line of a script, what the port and the original answered."""
        with tempfile.TemporaryDirectory() as room:
            script, told = os.path.join(room, "script"), os.path.join(room, "answers")
            with open(script, "w", encoding="latin-1") as file:
                file.writelines(line + "\n" for line in lines)
            with open(script, "rb") as given, open(told, "wb") as taken:
                done = subprocess.run(self.port, stdin=given, stdout=taken, cwd=ROOT, timeout=SECONDS, check=False)
            with open(told, encoding="latin-1") as file:
                text = file.read()
            if done.returncode and not text:
                raise RuntimeError("the port's command failed: " + " ".join(self.port))
            return by_call(lines, text), self.original(script, told, lines)

    def original(self, script, told, lines):
        """What the original answers to each line of the script, its driver told these answers."""
        run = subprocess.run([self.driver, script, told], capture_output=True, cwd=ROOT, timeout=SECONDS, check=False)
        return by_call(lines, run.stdout.decode("latin-1"))

    def asked(self, scripts):
        """For scripts, each with the answers to all but its last line: what the original, told nothing of that line, answers to it."""
        lines = [line for one, _ in scripts for line in one]
        with tempfile.TemporaryDirectory() as room:
            script, told = os.path.join(room, "script"), os.path.join(room, "answers")
            with open(script, "w", encoding="latin-1") as file:
                file.writelines(line + "\n" for line in lines)
            with open(told, "w", encoding="latin-1") as file:
                file.writelines(answer + "\n" for _, answers in scripts for answer in [*answers, ""])
            answers = iter(self.original(script, told, lines))
        return [[next(answers) for _ in one][-1] for one, _ in scripts]


def by_call(lines, text):
    """The answer to each line: one line, but a dump's answer goes on to its full stop."""
    rest = iter(text.split("\n")[:-1])
    answers = []
    for line in lines:
        answer = next(rest, "(no answer)")
        if line == "dump" and answer == "0":
            told = [answer]
            for more in rest:
                told.append(more)
                if more == ".":
                    break
            answer = "\n".join(told)
        answers.append(answer)
    answers[-1:] = ["\n".join(answers[-1:] + list(rest))]
    return answers


def first_difference(one, other):
    return next((at for at, (a, b) in enumerate(zip(one, other)) if a != b), None)


class Difference:
    """Where the port parts from the original, or from the model. Behind a far mark the original is known to part."""

    def __init__(self, seed, whom, lines, is_known):
        self.seed = seed
        self.whom = whom
        self.lines = lines
        self.is_known = is_known


class Tally:
    """What was run: calls by name, accepted ones, refusals by number; what the accepted deadlines, the questions for a Consumed, the receive
    tables and the far numbers met, as the model saw it; and what the original answers to calls that the port refused with 22."""

    def __init__(self):
        self.calls = collections.Counter()
        self.accepted = collections.Counter()
        self.refusals = collections.Counter()
        self.deadlines = collections.Counter()
        self.dues = collections.Counter()
        self.tables = collections.Counter()
        self.fars = collections.Counter()
        self.asked = collections.Counter()

    def add(self, lines, answers):
        for line, answer in zip(lines, answers):
            name = line.split(" ", 1)[0]
            first = answer.split(None, 1)[0] if answer else ""
            if first == "?":
                name = "?"
            self.calls[name] += 1
            if first == "0":
                self.accepted[name] += 1
            else:
                self.refusals[first] += 1
            if first == "2" or (name, first) == ("fresh", "21"):
                self.tables["%s refused with %s" % (name, first)] += 1

    def merge(self, other):
        self.calls.update(other.calls)
        self.accepted.update(other.accepted)
        self.refusals.update(other.refusals)
        self.deadlines.update(other.deadlines)
        self.dues.update(other.dues)
        self.tables.update(other.tables)
        self.fars.update(other.fars)
        self.asked.update(other.asked)

    def __str__(self):
        accepted = sum(self.accepted.values())
        numbers = sorted(self.refusals, key=lambda word: (not word.isdigit(), int(word) if word.isdigit() else 0))
        told = "%d calls, %d accepted, %d of these dumps\naccepted: %s\nrefused: %s\ndeadlines: %s\ndues: %s" % (
            sum(self.calls.values()),
            accepted,
            self.accepted["dump"],
            ", ".join("%s %d" % item for item in sorted(self.accepted.items())),
            ", ".join("%s: %d" % (word, self.refusals[word]) for word in numbers),
            ", ".join("%s: %d" % item for item in self.deadlines.items()) or "none",
            ", ".join("%s: %d" % item for item in self.dues.items()) or "none",
        )
        listed = {"receive tables": self.tables, "far numbers": self.fars, "what the original answers to what was refused with 22": self.asked}
        for name, counts in listed.items():
            lines = ["    %s: %d" % item for item in sorted(counts.items()) if item[1]]
            told += "\n".join(["\n%s:" % name, *lines]) if lines else ""
        return told


def asked_by_itself(sides, lines, port):
    """What the original answers to each call of a script that the port refused with 22, with the call's name. Each is asked by itself,
    behind the lines before it that the port did not refuse so."""
    names, scripts, before = [], [], []
    for line, answer in zip(lines, port):
        if line.startswith("fresh ") and answer == "0":
            before = []
        if answer == "22":
            names.append(line.split(" ")[0])
            scripts.append(([one for one, _ in before] + [line], [told for _, told in before]))
        elif line != "dump":
            before.append((line, answer))
    return zip(names, sides.asked(scripts)) if scripts else []


def joined(scripts):
    """The scripts' lines as those of one script, and the part of each. A lend of the records holds for the next `fresh` too, so that before
    each script but the first stands the lend that its `fresh` needs."""
    lines, parts = [], []
    for one in scripts:
        if lines:
            _, (_, _, cells) = parse(one[0])
            lines.append("lend records %d" % cells)
        parts.append(slice(len(lines), len(lines) + len(one)))
        lines += one
    return lines, parts


def compare(sides, seeds, calls, mode="near", cells=None):
    """Runs the seeds' scripts as one; answers the tally and each seed's first difference from the original and from the model."""
    scripts = [script(mode, seed, calls, cells) for seed in seeds]
    lines, parts = joined([one.lines for one in scripts])
    port, original = sides.answers(lines)
    tally = Tally()
    for one, part in zip(scripts, parts):
        tally.add(one.lines, port[part])
        tally.deadlines.update(one.deadlines)
        tally.dues.update(one.dues)
        tally.tables.update(one.tables)
        tally.fars.update(one.fars)
    if mode == "far":
        tally.asked.update("%s, answered %s" % one for one in asked_by_itself(sides, lines, port))
    differences = []
    for seed, one, part in zip(seeds, scripts, parts):
        for whom, other in (("original", original[part]), ("model", one.answers)):
            place = first_difference(port[part], other)
            if place is not None:
                is_known = mode == "marks" and whom == "original" and any(mark < place for mark in one.far_marks)
                differences.append(Difference(seed, whom, one.lines[: place + 1], is_known))
    return tally, differences


def both(sides, whom, lines):
    port, original = sides.answers(lines)
    if whom == "original":
        return port, original
    model = Model()
    return port, [model.answer(line) for line in lines]


def which_differ(sides, whom, scripts):
    """Which of the scripts show a difference. Each starts over with its own `fresh`, so that one run serves all."""
    lines, parts = joined(scripts)
    port, other = both(sides, whom, lines)
    return [port[part] != other[part] for part in parts]


def first_that_differs(sides, whom, scripts):
    """The first of the scripts that shows a difference, and its place."""
    at = 0
    while at < len(scripts):
        run, lines = [], 0
        while at + len(run) < len(scripts) and (not run or lines < LINES_A_RUN):
            run.append(scripts[at + len(run)])
            lines += len(run[-1])
        for place, differs in enumerate(which_differ(sides, whom, run), at):
            if differs:
                return place, scripts[place]
        at += len(run)
    return None, None


def fewer_lines(sides, whom, lines):
    """Without every line that the difference does without. The first, `fresh`, stays."""
    size = max(1, len(lines) // 2)
    while size >= 1:
        end = len(lines)
        while end > 1:
            starts = list(range(end - size, 0, -size)) or [1]
            place, found = first_that_differs(sides, whom, [lines[:start] + lines[start + size :] for start in starts])
            if found is None:
                break
            lines, end = found, starts[place]
        size //= 2
    return lines


def later_start(sides, whom, lines):
    """With a later start number, which makes up for a first message that is dropped."""
    while True:
        fresh = lines[0].split(" ")
        fresh[1] = str((int(fresh[1]) + 1) % WRAP)
        first = [next((at for at, line in enumerate(lines) if line.startswith(name)), None) for name in ("send ", "receive ")]
        dropped = [[at] for at in first if at] + ([first] if all(first) else [])
        shorter = [[" ".join(fresh)] + [line for at, line in enumerate(lines) if at and at not in drop] for drop in dropped]
        _, found = first_that_differs(sides, whom, shorter)
        if found is None:
            return lines
        lines = found


def shorter_bytes(sides, whom, lines):
    """With bytes cut to one, or to none."""
    for at, line in enumerate(lines):
        words = line.split(" ")
        if words[0] in ("send", "receive") and len(words[-1]) > 1:
            cut = [lines[:at] + [" ".join(words[:-1] + [word])] + lines[at + 1 :] for word in ("-", words[-1][:2])]
            _, found = first_that_differs(sides, whom, [one for one in cut if one != lines])
            lines = found or lines
    return lines


def smaller(sides, whom, lines):
    """The script made small: fewer lines, then fewer messages before them, then fewer bytes."""
    for make in (fewer_lines, later_start, fewer_lines, shorter_bytes, fewer_lines):
        lines = make(sides, whom, lines)
    return lines


def only_here(here, there):
    """An answer's lines that the other side's answer doesn't have; of a short answer, all."""
    here, there = here.split("\n"), there.split("\n")
    return [line for line in here if len(here) == 1 or line not in there] or ["(nothing that the other hasn't)"]


def show(sides, difference):
    """The difference's script made small, with what each side answers; of a dump, the lines that part."""
    lines = smaller(sides, difference.whom, difference.lines)
    port, other = both(sides, difference.whom, lines)
    place = first_difference(port, other)
    out = ["seed %d: the port and the %s part" % (difference.seed, difference.whom)]
    out += ["%d of %d calls:" % (len(lines), len(difference.lines)), *("    " + line for line in lines)]
    if place is None:
        return "\n".join(out + ["only when run in one go with other scripts"])
    for name, here, there in (("port", port[place], other[place]), (difference.whom, other[place], port[place])):
        out += ["the %s answers the last:" % name, *("    " + line for line in only_here(here, there))]
    return "\n".join(out)
