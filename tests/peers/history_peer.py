#!/usr/bin/env python3
"""Replies of sessions that run beside growers, judged: are they those of some legal history of the graph?

Usage: tests/peers/history_peer.py [RUNS] [SEED]    (200 runs, and one as the seed, where none is given)
       tests/peers/history_peer.py --model [RUNS] [SEED]

Each run is of a random job with up to 16 sessions, by 1 to 16 growers; half of the jobs have tight cells. The judge reads
the job and the replies alone. Growth and sessions interleave in any way, so it asks for an order in time of what the
replies tell: a word is put in once, an arrow is drawn once, behind both its ends, and a word that no session put in comes
by an arrow from a word that was there. A command takes a stretch of time, and those of a session follow each other. Where
there are cells too few for all words, it asks too which words had one. Of a `done` it asks more than a legal history need
have: that no session had put in a word, since no session of this program pays for one. What stands behind the replies must
be the graph, or `full`, to the byte.
--model tries the judge without the program (orders.py): it must accept the replies of random orders, and of tiny jobs, with
each reply changed to each other one or the last one left out, just those that some order gives.
"""
import random
import subprocess
import sys

from crystals import PROGRAM, Crystal, command_text, coordinates, graph_lines, text
from orders import Orders


class Times:
    """Points in time with what must come before each, and of some what one of several must come before."""

    def __init__(self):
        self.before, self.one_of = {}, {}

    def point(self, x):
        self.before.setdefault(x, set())
        return x

    def order(self, first, second):
        self.point(first)
        self.before[self.point(second)].add(first)

    def passed(self, hindered=()):
        """The points but for hindered ones that are passed in some order, first ones first: each as soon as it may be, which
        is never too early."""
        passed, waiting = {}, {x: firsts for x, firsts in self.before.items() if x not in hindered}
        while True:
            ready = [
                x
                for x, firsts in waiting.items()
                if firsts <= passed.keys() and (x not in self.one_of or any(y in passed for y in self.one_of[x]))
            ]
            if not ready:
                return passed
            for x in ready:
                passed[x] = waiting.pop(x)


class Judge:
    """Judges the replies of a job. `never` are the words that get no cell, `known` those that must get one, `new` those that
    sessions added; `closed` are the moments of `done`."""

    def __init__(self, crystal, starts, sessions, cells):
        self.crystal, self.sessions, self.cells = crystal, sessions, cells
        self.times, self.never, self.known, self.new = Times(), set(), set(), set()
        self.there_first, self.closed = [], []
        for word in starts:
            if word not in self.there_first:
                if len(self.there_first) < cells:
                    self.there_first.append(word)
                else:
                    self.never.add(word)
        for word in self.there_first:
            self.known.add(word)
            self.times.order("begin", ("in", word))
        for number, script in enumerate(sessions):
            for k in range(len(script) + 1):
                # The stretch of command k lies between the points k and k + 1.
                self.times.order(("at", number, k - 1) if k else "begin", ("at", number, k))
            for word in self.there_first:
                self.times.order(("in", word), ("at", number, 0))

    def is_in_by(self, word, end):
        self.known.add(word)
        self.times.order(("in", word), end)

    def is_out_at(self, word, begin):
        self.times.order(begin, ("in", word))

    def is_drawn_by(self, word, name, i, end):
        target = self.crystal.act(word, name == "f", i)
        drawn = ("drawn", word, name, i)
        self.is_in_by(word, drawn)
        if target is not None:
            self.is_in_by(target, drawn)
        self.times.order(drawn, end)

    def finds_no_cell(self, word, end):
        self.never.add(word)
        self.times.order("full", end)

    def take(self, number, k, command, reply):
        """Notes what a reply tells; a text says why no history gives it."""
        (name, i, word), begin, end = command, ("at", number, k), ("at", number, k + 1)
        crystal = self.crystal
        if name == "wt":
            return None if reply == coordinates(crystal.weight(word)) else "another weight"
        if name in ("eps", "phi"):
            return None if reply == str(crystal.strings(word, i)[name == "phi"]) else "another length"
        if name == "done":
            return self.take_done(begin, end, reply)
        if name == "add":
            if reply == "new":
                if word in self.new:
                    return "new twice"
                self.new.add(word)
                self.is_out_at(word, begin)
                self.is_in_by(word, end)
            elif reply == "old":
                self.is_in_by(word, end)
            elif reply == "full":
                self.finds_no_cell(word, end)
            else:
                return "no reply to add"
            return None
        if reply == "absent":
            self.is_out_at(word, begin)
            return None
        if name == "find":
            self.is_in_by(word, end)
            return None if reply == "there" else "no reply to find"
        arrow = name[-1]
        target = crystal.act(word, arrow == "f", i)
        self.is_in_by(word, end)
        if name.startswith("look") and reply == "open":
            self.times.order(begin, ("drawn", word, arrow, i))
        elif not name.startswith("look") and reply == "full" and target is not None:
            self.finds_no_cell(target, end)
        elif reply == ("zero" if target is None else text(target)):
            self.is_drawn_by(word, arrow, i, end)
        else:
            return "another word"
        return None

    def take_done(self, begin, end, reply):
        if reply == "more":
            return None
        if reply != "done":
            return "no reply to done"
        # Just what the starts reach is there, and all its arrows are drawn.
        moment = ("closed", *begin[1:])
        self.closed.append(moment)
        self.times.order(begin, moment)
        self.times.order(moment, end)
        for word in self.crystal.component(self.there_first):
            for arrow in "fe":
                for i in range(1, self.crystal.rank + 1):
                    self.is_drawn_by(word, arrow, i, moment)
        return None

    def verdict(self, told, is_full):
        """None, or why no legal history gives these replies; `is_full` where more words are reached than there are cells."""
        for number, (script, lines) in enumerate(zip(self.sessions, told)):
            if len(lines) != len(script):
                return f"session {number + 1}: another number of replies"
            for k, (command, reply) in enumerate(zip(script, lines)):
                why = self.take(number, k, command, reply)
                if why:
                    return f"session {number + 1}, command {k + 1}: {why}"
        if self.never and not is_full:
            return "a word without a cell, but a whole graph"
        return self.timed(is_full)

    def timed(self, is_full):
        times = self.times
        for moment in self.closed:
            for word in self.new:
                self.is_out_at(word, moment)
        for word in self.known if "full" in times.before else ():
            times.order(("in", word), "full")
        for word in self.crystal.component(self.new.union(self.there_first)):
            times.point(("in", word))
        for word in self.never:
            times.before.pop(("in", word), None)
        entries = {x for x in times.before if x[0] == "in"}
        for x in entries:
            if x[1] not in self.there_first and x[1] not in self.new:
                times.one_of[x] = self.parents(x[1])
        # What nothing asks to be there may stay away for good.
        known = frozenset(("in", word) for word in self.known)
        if not times.before.keys() - times.passed() <= entries - known:
            return "no order in time gives these replies"
        if not is_full:
            return None
        early = [x for x in times.passed({"full"}) if x in entries]
        if "full" in times.before and len(early) < self.cells:
            return "full, but too few words can be there"
        return None if self.have_cells(known, entries, early) else "more words than cells"

    def parents(self, word):
        """The entries of the words from which an arrow leads to this one."""
        arrows = [(arrow, i) for arrow in "fe" for i in range(1, self.crystal.rank + 1)]
        return {("in", self.crystal.act(word, arrow == "f", i)) for arrow, i in arrows}

    def have_cells(self, known, entries, early):
        """Whether the known words and some others that they come from have cells enough, the likely ones tried first."""
        todo, seen = [known], {known}
        while todo:
            some = todo.pop()
            if len(some) > self.cells:
                continue
            passed = self.times.passed(entries - some)
            wanting = [x for x in some if x not in passed and self.times.before[x] <= passed.keys()]
            if some <= passed.keys():
                return True
            others = set().union(*(self.times.one_of[x] for x in wanting)) - some
            for x in reversed(early):
                if x in others and some | {x} not in seen:
                    todo.append(some | {x})
                    seen.add(some | {x})
        return False


def roots_of(starts, sessions):
    return set(starts) | {word for script in sessions for name, _, word in script if name == "add"}


def near_job(chance):
    """A job in a small space, of which sessions ask a few words again and again."""
    kind = chance.choice("ABC")
    rank = chance.randint({"A": 1, "B": 2, "C": 2}[kind], 2)
    crystal = Crystal(kind, rank, ["v"] * chance.randint(1, 3))
    starts = [crystal.random_word(chance) for _ in range(chance.randint(1, 2))]
    lines = ["crystal-job 2", f"type {kind} {rank}", "space " + " ".join(crystal.factors)]
    lines += ["start " + text(word) for word in starts]
    near = crystal.component(starts)[:12] + [crystal.random_word(chance) for _ in range(2)]
    sessions = []
    for _ in range(chance.choice([1, 2, 3, 16])):
        script = []
        for _ in range(chance.randint(0, 6)):
            name = chance.choice(["add", "find", "f", "e", "look f", "look e", "done", "wt", "phi"])
            script.append((name, chance.randint(1, rank), chance.choice(near)))
        sessions.append(script)
    roots = roots_of(starts, sessions)
    reached = len(crystal.component(roots))
    cells = 65536 if chance.random() < 0.5 else max(1, reached + chance.randint(-2, 1))
    lines.append(f"cells {cells}")
    for script in sessions:
        lines += ["session"] + [command_text(*command) for command in script]
    return "\n".join(lines) + "\n", crystal, starts, sessions, cells, roots


# Starts, cells, and one session with replies that no order gives, each for one reason alone, in A_1 over two letters.
WRONG = [
    ([(2, 1)], 3, [("add", 1, (2, 2), "full")]),
    ([(1, 1)], 2, [("f", 1, (2, 2), "zero")]),
    ([(1, 1)], 2, [("add", 1, (2, 2), "full"), ("add", 1, (2, 1), "new")]),
    ([(1, 1)], 4, [("add", 1, (2, 1), "new"), ("done", 1, (1, 1), "done")]),
]


def tiny_job(chance):
    """A job with so few words and commands that all orders can be tried."""
    crystal = Crystal("A", *chance.choice([(1, ["v"]), (1, ["v", "v"]), (1, ["v", "v"]), (2, ["v"])]))
    starts = [crystal.random_word(chance) for _ in range(chance.choice([1, 1, 2]))]
    near = chance.choices(crystal.component(starts), k=2) + [crystal.random_word(chance) for _ in range(2)]
    every = ["add", "add", "find", "f", "e", "look f", "look e", "done", "wt", "eps", "phi"]
    names = chance.choice([every, every, ["add", "f"], ["add", "done"]])
    sessions = []
    for _ in range(chance.choice([1, 2, 2, 3])):
        sessions.append([])
        for _ in range(chance.randint(1, 3)):
            sessions[-1].append((chance.choice(names), chance.randint(1, crystal.rank), chance.choice(near)))
    reached = len(crystal.component(roots_of(starts, sessions)))
    cells = max(1, reached - chance.randint(0, 2))
    return crystal, starts, sessions, cells


def told_in(lines, sessions):
    """The replies of the sessions, and the lines behind them."""
    told, at = [], 1
    for number, script in enumerate(sessions, 1):
        if lines[at : at + 1] != [f"session {number}"]:
            sys.exit("\n".join(lines) + f"line {at + 1} is not 'session {number}'")
        told.append(lines[at + 1 : at + 1 + len(script)])
        at += 1 + len(script)
    return told, lines[at:]


def others(crystal, command, told):
    """What else the program might reply to a command."""
    name, i, word = command
    usual = {"add": ["new", "old", "full"], "find": ["there", "absent"], "done": ["done", "more"]}
    if name in usual:
        replies = [*usual[name], "nothing"]
    elif name in ("f", "e", "look f", "look e"):
        target = crystal.act(word, name[-1] == "f", i)
        replies = ["absent", "full", "open", "zero", text(word if target is None else target)]
    else:
        replies = ["9"]
    return [reply for reply in replies if reply != told]


def changed(crystal, sessions, told):
    """The replies with each one changed to each other one, and without the last one of each session."""
    for n, script in enumerate(sessions):
        yield told[:n] + [told[n][:-1]] + told[n + 1 :]
        for k, command in enumerate(script):
            for reply in others(crystal, command, told[n][k]):
                yield told[:n] + [told[n][:k] + [reply] + told[n][k + 1 :]] + told[n + 1 :]


def judge_model(count, chance):
    for number in range(1, count + 1):
        job, crystal, starts, sessions, cells, roots = near_job(chance)
        told = Orders(crystal, starts, sessions, cells).at_random(chance)
        why = Judge(crystal, starts, sessions, cells).verdict(told, len(crystal.component(roots)) > cells)
        if why:
            sys.exit(f"run {number} of the model is refused: {why}\n{job}{told}")
    for starts, cells, script in WRONG:
        job = Crystal("A", 1, ["v", "v"]), starts, [[command[:3] for command in script]], cells
        if decided(*job, [[reply for *_, reply in script]]):
            sys.exit(f"some order gives wrong replies: {script}")
    given = asked = 0
    for number in range(1, count + 1):
        crystal, starts, sessions, cells = job = tiny_job(chance)
        told = Orders(*job).at_random(chance)
        for replies in [told, *changed(crystal, sessions, told)]:
            given += decided(*job, replies)
            asked += 1
    print(f"{count} runs of the model are accepted; of {asked} replies to tiny jobs just the {given} that some order gives")


def decided(crystal, starts, sessions, cells, replies):
    """Whether the judge accepts the replies, which must be whether some order gives them."""
    reached = len(crystal.component(roots_of(starts, sessions)))
    why = Judge(crystal, starts, sessions, cells).verdict(replies, reached > cells)
    if Orders(crystal, starts, sessions, cells).give(replies) == bool(why):
        sys.exit(f"{why or 'accepted'}, but not so by all orders: {starts}, {cells} cells\n{sessions}\n{replies}")
    return why is None


def judge_program(count, chance):
    full = 0
    for number in range(1, count + 1):
        job, crystal, starts, sessions, cells, roots = near_job(chance)
        growers = str(chance.randint(1, 16))
        ran = subprocess.run([PROGRAM, "grow", growers], input=job.encode(), capture_output=True)
        told, rest = told_in(ran.stdout.decode().split("\n"), sessions)
        vertices = crystal.component(roots)
        is_full = len(vertices) > cells
        wanted = ["full"] if is_full else graph_lines(crystal, vertices, {word: n for n, word in enumerate(vertices)})
        why = Judge(crystal, starts, sessions, cells).verdict(told, is_full)
        if ran.returncode != 3 * is_full or rest != wanted + ["end", ""]:
            why = f"status {ran.returncode}, {len(vertices)} words for {cells} cells, or another graph"
        if why:
            sys.exit(f"run {number}, grow {growers}: {why}\n{job}{ran.stdout.decode()}")
        full += is_full
    print(f"{count} runs have the replies of legal histories ({full} of them full)")


def main():
    words = [word for word in sys.argv[1:] if word != "--model"]
    count = int(words[0]) if words else 200
    chance = random.Random(int(words[1]) if len(words) > 1 else 1)
    (judge_model if "--model" in sys.argv else judge_program)(count, chance)


if __name__ == "__main__":
    main()
