"""The orders in which growth and sessions can take their steps on one graph: the replies of one at random, and all of them.

Of a job with few words and commands all orders can be tried; history_peer.py judges longer ones, and is tried on these.
"""
from crystals import coordinates, text


class Orders:
    """A state says which words are there and which arrows are drawn (as bits), whether a session has put in a word, and
    how many commands of each session are answered. Only arrows that a command asks for are kept: of the others nothing is
    told, so growth may draw them at the last moment. Each step of growth puts in a word that an arrow leads to, or draws an
    arrow; a move of a session that lacks its word puts it in by one step, and goes on by another.
    """

    def __init__(self, crystal, starts, sessions, cells):
        self.crystal, self.sessions, self.cells = crystal, sessions, cells
        asked = [command for script in sessions for command in script]
        words = crystal.component(set(starts) | {word for _, _, word in asked})
        self.bit = {word: 1 << n for n, word in enumerate(words)}
        arrows = [(word, arrow, i) for word in words for arrow in "fe" for i in range(1, crystal.rank + 1)]
        self.target = {(word, arrow, i): crystal.act(word, arrow == "f", i) for word, arrow, i in arrows}
        kept = dict.fromkeys((word, name[-1], i) for name, i, word in asked if name.split()[-1] in ("f", "e"))
        self.arrow_bit = {arrow: 1 << n for n, arrow in enumerate(kept)}
        there = 0
        for word in starts:
            if not self.is_full(there):
                there |= self.bit[word]
        self.first = (there, 0, False, (0,) * len(sessions))

    def is_full(self, there):
        return there.bit_count() == self.cells

    def is_there(self, there, word):
        return word is None or bool(there & self.bit[word])

    def is_closed(self, there, drawn):
        return not any(self.grown((there, drawn, False, ()))) and all(
            self.is_there(there, target) for arrow, target in self.target.items() if there & self.bit[arrow[0]]
        )

    def grown(self, state):
        """The states after one step of growth."""
        there, drawn, own, at = state
        for arrow, target in self.target.items():
            if there & self.bit[arrow[0]]:
                if self.is_there(there, target):
                    if arrow in self.arrow_bit and not drawn & self.arrow_bit[arrow]:
                        yield there, drawn | self.arrow_bit[arrow], own, at
                elif not self.is_full(there):
                    yield there | self.bit[target], drawn, own, at

    def answered(self, state, number):
        """The replies that the next command of a session may have now, each with the state after it; None goes on with it."""
        there, drawn, own, at = state
        name, i, word = self.sessions[number][at[number]]
        behind = at[:number] + (at[number] + 1,) + at[number + 1 :]
        same = (there, drawn, own, behind)
        if name == "wt":
            return [(coordinates(self.crystal.weight(word)), same)]
        if name in ("eps", "phi"):
            return [(str(self.crystal.strings(word, i)[name == "phi"]), same)]
        if name == "done":
            # Growth pays, when it likes; no session pays for what it put in.
            return [("more", same)] + [("done", same)] * (not own and self.is_closed(there, drawn))
        if name == "add":
            if there & self.bit[word]:
                return [("old", same)]
            return [("full", same) if self.is_full(there) else ("new", (there | self.bit[word], drawn, True, behind))]
        if not there & self.bit[word]:
            return [("absent", same)]
        if name == "find":
            return [("there", same)]
        arrow = (word, name[-1], i)
        target, bit = self.target[arrow], self.arrow_bit[arrow]
        reply = "zero" if target is None else text(target)
        if drawn & bit:
            return [(reply, same)]
        if name.startswith("look"):
            return [("open", same)]
        if self.is_there(there, target):
            return [(reply, (there, drawn | bit, own, behind))]
        return [("full", same) if self.is_full(there) else (None, (there | self.bit[target], drawn, True, at))]

    def at_random(self, chance):
        """The replies of a random order."""
        state, told = self.first, [[] for _ in self.sessions]
        while left := [n for n, script in enumerate(self.sessions) if state[3][n] < len(script)]:
            for _ in range(chance.choice([0, 0, 1, 5])):
                state = chance.choice(list(self.grown(state)) or [state])
            number = chance.choice(left)
            reply, state = chance.choice(self.answered(state, number))
            if reply is not None:
                told[number].append(reply)
        return told

    def give(self, told):
        """Whether some order gives these replies."""
        if [len(replies) for replies in told] != [len(script) for script in self.sessions]:
            return False
        seen, todo = {self.first}, [self.first]
        while todo:
            state = todo.pop()
            nexts = list(self.grown(state))
            left = [n for n, script in enumerate(self.sessions) if state[3][n] < len(script)]
            if not left:
                return True
            for n in left:
                nexts += [after for reply, after in self.answered(state, n) if reply in (None, told[n][state[3][n]])]
            for after in nexts:
                if after not in seen:
                    seen.add(after)
                    todo.append(after)
        return False
