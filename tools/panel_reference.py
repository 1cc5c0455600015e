#!/usr/bin/env python3
"""What the program `panel` must print for the script on standard input.

It is written from the definitions alone and searches by brute force, so that
it shares no method with the program: tools/panel_reference.py < script
"""

import sys
from math import gcd

MAX_SIZE = 65_536
MAX_LINE = 1_000_000
MAX_NUMBER = 4_294_967_295
MAX_CODE = 65_535
MAX_EXPONENT = 255
MAX_MONOMIALS = 64
REGISTERS = "abcdef"


class Fault(Exception):
    """Why a line is no command."""


class Refused(Exception):
    """The number of a refusal."""


class Residues:
    """The numbers below n, with sums and products reduced by n."""

    def __init__(self, n):
        if not 2 <= n <= MAX_SIZE:
            raise Refused(1)
        self.size = n

    def one(self):
        return 1

    def sum(self, a, b):
        return (a + b) % self.size

    def negative(self, a):
        return -a % self.size

    def product(self, a, b):
        return a * b % self.size

    def annihilator(self, a):
        return self.size // gcd(a, self.size) % self.size

    def residue(self, a, b):
        return a % gcd(b, self.size)

    def quotient(self, a, b):
        """One for equal codes, else the least q with q·b = a."""
        if a == b:
            return 1
        return next((q for q in range(self.size) if q * b % self.size == a), None)

    def gcd(self, a, b):
        """g, the least u for which some v gives g = u·a + v·b, and the least such v."""
        n = self.size
        g = gcd(a, b, n) % n
        first = {}
        for v in range(n):
            first.setdefault(v * b % n, v)
        u = next(u for u in range(n) if (g - u * a) % n in first)
        return (g, u, first[(g - u * a) % n])


class Pairs:
    """The pairs of two rings: code x·Q + y is (x, y), and every function works on each side."""

    def __init__(self, left, right):
        if left.size * right.size > MAX_SIZE:
            raise Refused(1)
        self.left, self.right = left, right
        self.size = left.size * right.size

    def joined(self, x, y):
        return x * self.right.size + y

    def on_sides(self, name, codes):
        sides = [divmod(a, self.right.size) for a in codes]
        left = getattr(self.left, name)(*(x for x, _ in sides))
        right = getattr(self.right, name)(*(y for _, y in sides))
        return left, right

    def one(self):
        return self.joined(self.left.one(), self.right.one())

    def sum(self, a, b):
        return self.joined(*self.on_sides("sum", (a, b)))

    def negative(self, a):
        return self.joined(*self.on_sides("negative", (a,)))

    def product(self, a, b):
        return self.joined(*self.on_sides("product", (a, b)))

    def annihilator(self, a):
        return self.joined(*self.on_sides("annihilator", (a,)))

    def residue(self, a, b):
        return self.joined(*self.on_sides("residue", (a, b)))

    def quotient(self, a, b):
        x, y = self.on_sides("quotient", (a, b))
        return None if x is None or y is None else self.joined(x, y)

    def gcd(self, a, b):
        return tuple(self.joined(x, y) for x, y in zip(*self.on_sides("gcd", (a, b))))


# The operations: how many codes each takes, and what it answers where one is no code of the ring.
OPERATIONS = {
    "one": (0, 0),
    "sum": (2, 0),
    "negative": (1, 0),
    "product": (2, 0),
    "annihilator": (1, 0),
    "residue": (2, 0),
    "quotient": (2, None),
    "gcd": (2, (0, 0, 0)),
}


class Monomial:
    """Six exponents and a code, from a number of 64 bits: 8 bits for each exponent, then 16 for the code."""

    def __init__(self, bits):
        *exponents, high, low = bits.to_bytes(8, "big")
        self.term = tuple(exponents)
        self.code = 256 * high + low


def lex_key(term):
    """Larger keys are greater terms: the first exponent that differs decides."""
    return term


def reverse_key(term):
    """The degree, then the last exponent that differs, the smaller one greater."""
    return (sum(term), tuple(-exponent for exponent in reversed(term)))


def weight_key(weights, below):
    """The sum of weight times exponent, then the key below."""
    return lambda term: (sum(w * e for w, e in zip(weights, term)), below(term))


def checked(ring, key, monomials):
    """The polynomial that a list is: its codes by terms."""
    if len(monomials) > MAX_MONOMIALS:
        raise Refused(2)
    if any(not 0 < m.code < ring.size for m in monomials):
        raise Refused(3)
    keys = [key(m.term) for m in monomials]
    if keys != sorted(set(keys), reverse=True):
        raise Refused(4)
    return {m.term: m.code for m in monomials}


def added(ring, key, first, factor, second):
    """A polynomial plus a monomial times another, from unchecked lists."""
    total, line = checked(ring, key, first), checked(ring, key, second)
    if not 0 < factor.code < ring.size:
        raise Refused(3)
    for term, code in line.items():
        product = tuple(map(sum, zip(factor.term, term)))
        if max(product) > MAX_EXPONENT:
            raise Refused(8)
        total[product] = ring.sum(total.get(product, 0), ring.product(factor.code, code))
    total = {term: code for term, code in total.items() if code != 0}
    if len(total) > MAX_MONOMIALS:
        raise Refused(9)
    return total


def factors(ring, term, code):
    """A monomial's coefficient and powers, as they are shown."""
    powers = [
        letter if exponent == 1 else f"{letter}^{exponent}"
        for letter, exponent in zip(REGISTERS, term)
        if exponent > 0
    ]
    return powers if powers and code == ring.one() else [str(code), *powers]


def formula_text(ring, key, polynomial):
    terms = sorted(polynomial, key=key, reverse=True)
    return "+".join("*".join(factors(ring, t, polynomial[t])) for t in terms) or "0"


def number(word, most):
    if not all("0" <= digit <= "9" for digit in word):
        raise Fault("not a number")
    digits = word.lstrip("0") or "0"
    if len(digits) > len(str(most)) or int(digits) > most:
        raise Fault("number too large")
    return int(digits)


def packed(word):
    if len(word) != 16 or any(digit not in "0123456789abcdefABCDEF" for digit in word):
        raise Fault("not 16 hexadecimal digits")
    return Monomial(int(word, 16))


def taken(words):
    """The next word, taken off the list."""
    if not words:
        raise Fault("missing word")
    return words.pop(0)


def formula(words):
    """The monomials up to a `/` or the end, taken off the list."""
    end = words.index("/") if "/" in words else len(words)
    part = words[:end]
    if not part:
        raise Fault("missing word")
    if part[0] == "0":
        del words[0]
        return []
    del words[:end]
    return [packed(word) for word in part]


def separator(words):
    if taken(words) != "/":
        raise Fault("extra word")


def ended(words):
    if words:
        raise Fault("extra word")


def numbers(words, least, most, largest):
    """The words as numbers, from left to right; at least and at most so many of them."""
    read = [number(word, largest) for word in words[:most]]
    if len(read) < least:
        raise Fault("missing word")
    ended(words[most:])
    return read


def plain_key(word):
    keys = {"lex": lex_key, "reverse": reverse_key}
    if word not in keys:
        raise Fault("unknown word")
    return keys[word]


def planned_order(words):
    """The number of the order's kind, and its key."""
    name = taken(words)
    if name == "weight":
        weights = packed(taken(words)).term
        kind, key = 3, weight_key(weights, plain_key(taken(words)))
    else:
        key = plain_key(name)
        kind = 1 if name == "lex" else 2
    ended(words)
    return kind, key


def planned_ring(words):
    """The sizes of the residue rings that `ring` asks for."""
    if not words:
        raise Fault("missing word")
    if words[0] == "residue":
        return numbers(words[1:], 1, 1, MAX_NUMBER)
    if words[0] == "pair":
        return numbers(words[1:], 2, 3, MAX_NUMBER)
    raise Fault("unknown word")


def ring_of(sizes):
    ring, *others = [Residues(n) for n in sizes]
    for other in others:
        ring = Pairs(ring, other)
    return ring


def shown(answer):
    if answer is None:
        return "none"
    if isinstance(answer, tuple):
        return " ".join(map(str, answer))
    return str(answer)


class Session:
    """The ring and the order that stand; a command that is no command or is refused leaves them."""

    def __init__(self):
        self.ring, self.key = Residues(2), lex_key

    def carried_out(self, name, words):
        """What a command prints."""
        method = getattr(self, f"on_{name}", None)
        if method is not None:
            return method(words)
        if name not in OPERATIONS:
            raise Fault("unknown command")
        count, outside = OPERATIONS[name]
        codes = numbers(words, count, count, MAX_CODE)
        if any(a >= self.ring.size for a in codes):
            return shown(outside)
        return shown(getattr(self.ring, name)(*codes))

    def on_ring(self, words):
        self.ring = ring_of(planned_ring(words))
        return f"ring {self.ring.size}"

    def on_order(self, words):
        kind, self.key = planned_order(words)
        return f"order {kind}"

    def on_compare(self, words):
        left, right = packed(taken(words)), packed(taken(words))
        ended(words)
        left, right = self.key(left.term), self.key(right.term)
        return "less" if left < right else "greater" if left > right else "equal"

    def on_show(self, words):
        monomials = formula(words)
        ended(words)
        return self.formula_line(checked(self.ring, self.key, monomials))

    def on_add(self, words):
        first = formula(words)
        separator(words)
        factor = packed(taken(words))
        separator(words)
        second = formula(words)
        ended(words)
        return self.formula_line(added(self.ring, self.key, first, factor, second))

    def formula_line(self, polynomial):
        return f"formula {formula_text(self.ring, self.key, polynomial)}"


def words_of(line):
    """The words of a line, none for a comment."""
    if len(line) > MAX_LINE:
        raise Fault("line too long")
    try:
        text = line.decode("utf-8")
    except UnicodeDecodeError:
        raise Fault("not UTF-8") from None
    if text.startswith("#"):
        return []
    return [word for word in text.split(" ") if word]


def main():
    session = Session()
    lines = sys.stdin.buffer.read().split(b"\n")
    if lines[-1] == b"":
        lines.pop()
    for count, line in enumerate(lines, start=1):
        try:
            words = words_of(line)
            if words:
                print(session.carried_out(words[0], words[1:]))
        except Fault as fault:
            print(f"error: line {count}: {fault}")
        except Refused as refused:
            print(f"refused {refused}")


main()
