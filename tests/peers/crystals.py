"""Crystals of words in Python, by the definitions of the book, and their texts; the other files of this folder use them."""
from fractions import Fraction
from itertools import product
from pathlib import Path

TOP = Path(__file__).resolve().parents[2]
PROGRAM = TOP / "crates" / "crystal_shell" / "out" / "crystal_shell"
STANDARD, KASHIWARA = "standard", "kashiwara"


class Crystal:
    """A tensor product of vector and spin crystals of one type. A word is a tuple of letters and sign vectors."""

    def __init__(self, kind, rank, factors, order=STANDARD):
        self.kind, self.rank, self.factors, self.order = kind, rank, factors, order
        self.bases = [self.base(factor) for factor in factors]
        self.places = [{x: n for n, x in enumerate(base)} for base in self.bases]
        self.lengths = {}

    def base(self, factor):
        r = self.rank
        if factor == "v":
            if self.kind == "A":
                return list(range(1, r + 2))
            middle = [0] if self.kind == "B" else []
            return list(range(1, r + 1)) + middle + list(range(-r, 0))
        vectors = product((1, -1), repeat=r)
        if factor == "s":
            return list(vectors)
        odd = factor == "s-"
        return [v for v in vectors if (v.count(-1) % 2 == 1) == odd]

    def lower_one(self, x, i):
        r, kind = self.rank, self.kind
        if isinstance(x, tuple):
            y = list(x)
            if i < r:
                if x[i - 1 : i + 1] != (1, -1):
                    return None
                y[i - 1], y[i] = -1, 1
            elif kind == "B":
                if x[r - 1] != 1:
                    return None
                y[r - 1] = -1
            else:
                if x[r - 2 :] != (1, 1):
                    return None
                y[r - 2 :] = [-1, -1]
            return tuple(y)
        if i < r or kind == "A":
            return {i: i + 1, **({} if kind == "A" else {-(i + 1): -i})}.get(x)
        return {"B": {r: 0, 0: -r}, "C": {r: -r}, "D": {r - 1: -r, r: -(r - 1)}}[kind].get(x)

    def raise_one(self, x, i, base):
        return next((y for y in base if self.lower_one(y, i) == x), None)

    def strings_one(self, x, i, base):
        """The lengths of the strings of one element, computed once."""
        if (x, i) not in self.lengths:
            self.lengths[x, i] = self.count_one(x, i, base)
        return self.lengths[x, i]

    def count_one(self, x, i, base):
        eps = phi = 0
        y = self.raise_one(x, i, base)
        while y is not None:
            eps, y = eps + 1, self.raise_one(y, i, base)
        y = self.lower_one(x, i)
        while y is not None:
            phi, y = phi + 1, self.lower_one(y, i)
        return eps, phi

    def strings(self, word, i, at=0):
        eps, phi = self.strings_one(word[0], i, self.bases[at])
        if len(word) == 1:
            return eps, phi
        eps_rest, phi_rest = self.strings(word[1:], i, at + 1)
        if self.order == KASHIWARA:
            return eps + max(0, eps_rest - phi), phi_rest + max(0, phi - eps_rest)
        return eps_rest + max(0, eps - phi_rest), phi + max(0, phi_rest - eps)

    def act(self, word, down, i, at=0):
        first, rest, base = word[0], word[1:], self.bases[at]
        if rest and self.on_rest(first, rest, down, i, at):
            moved = self.act(rest, down, i, at + 1)
            return None if moved is None else (first,) + moved
        moved = self.lower_one(first, i) if down else self.raise_one(first, i, base)
        return None if moved is None else (moved,) + rest

    def on_rest(self, first, rest, down, i, at):
        """Whether the operator acts on the factors behind the first."""
        (eps, phi), (eps_rest, phi_rest) = self.strings_one(first, i, self.bases[at]), self.strings(rest, i, at + 1)
        if self.order == KASHIWARA:
            return phi <= eps_rest if down else phi < eps_rest
        return phi_rest > eps if down else phi_rest >= eps

    def weight(self, word):
        size = self.rank + 1 if self.kind == "A" else self.rank
        total = [Fraction(0)] * size
        for x in word:
            if isinstance(x, tuple):
                total = [t + Fraction(s, 2) for t, s in zip(total, x)]
            elif x:
                total[abs(x) - 1] += 1 if x > 0 else -1
        return total

    def pairing(self, weight, i):
        r = self.rank
        if i < r or self.kind == "A":
            return weight[i - 1] - weight[i]
        return {"B": 2 * weight[r - 1], "C": weight[r - 1], "D": weight[r - 2] + weight[r - 1]}[self.kind]

    def key(self, word):
        return tuple(places[x] for places, x in zip(self.places, word))

    def random_word(self, chance):
        return tuple(chance.choice(base) for base in self.bases)

    def component(self, roots):
        seen, todo = set(roots), list(roots)
        while todo:
            word = todo.pop()
            for i in range(1, self.rank + 1):
                for down in (True, False):
                    moved = self.act(word, down, i)
                    if moved is not None and moved not in seen:
                        seen.add(moved)
                        todo.append(moved)
        return sorted(seen, key=self.key)


class Mirrored(Crystal):
    """Words in Kashiwara's order by the standard order of the reversed words over the reversed factors."""

    def __init__(self, kind, rank, factors):
        super().__init__(kind, rank, factors)
        self.mirror = Crystal(kind, rank, factors[::-1])

    def act(self, word, down, i, at=0):
        moved = self.mirror.act(word[::-1], down, i)
        return None if moved is None else moved[::-1]


def text(word):
    return " ".join("".join("+" if s > 0 else "-" for s in x) if isinstance(x, tuple) else str(x) for x in word)


def coordinates(weight):
    return " ".join(str(w.numerator) if w.denominator == 1 else f"{w.numerator}/2" for w in weight)


def graph_lines(crystal, vertices, rank):
    indices = range(1, crystal.rank + 1)
    lines, count = [], 0
    for n, word in enumerate(vertices):
        arrows = [(i, crystal.act(word, True, i)) for i in indices]
        arrows = [f"{i}:{rank[target]}" for i, target in arrows if target is not None]
        count += len(arrows)
        lines.append(f"{n} | {text(word)} | {coordinates(crystal.weight(word))} | {' '.join(arrows) or '-'}")
    return [f"graph {len(vertices)} {count}"] + lines


def column_reading(rows, order):
    columns = [sum(row > j for row in rows) for j in range(rows[0])]
    reading = tuple(x for height in columns for x in range(height, 0, -1))
    return reading if order == STANDARD else reading[::-1]


def command_text(name, i, word):
    if name == "done":
        return name
    return f"{name} {text(word)}" if name in ("add", "find", "wt") else f"{name} {i} {text(word)}"
