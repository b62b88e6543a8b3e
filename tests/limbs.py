"""What the program limbs_run must print, worked out with whole numbers of Python's.

Shares no code with the crates: limbs become one number, the arithmetic is Python's, and the number is cut into limbs again.
"""

BASE = 2**64


def draw(state):
    return state % 2147483647 * 48271 % 2147483647


def limb(state):
    a = draw(state)
    b = draw(a)
    c = draw(b)
    if c % 4 == 0:
        return 0
    if c % 4 == 1:
        return BASE - 1
    return a * 2**33 + b * 4 + c % 4


def drawn(count, state):
    limbs = []
    for _ in range(count):
        state = draw(state)
        limbs.append(limb(state))
    return limbs


def value(limbs):
    return sum(l * BASE**i for i, l in enumerate(limbs))


def show(answer, limbs):
    print(" ".join(f"{n:x}" for n in [answer, *limbs]))


def show_held(number, n, limbs):
    show(number // BASE**n, [number // BASE**i % BASE for i in range(n)] + limbs[n:])


def tried(state, n, at):
    k = limb(state)
    rows = drawn(14, draw(k))
    acc = drawn(12, state)
    a, b = value(acc[:n]), value(rows[at : at + n])
    show_held(a + b, n, acc)
    show(1 if a < b else 0, [(a - b) % BASE**n // BASE**i % BASE for i in range(n)] + acc[n:])
    show_held(a * k, n, acc)
    show_held(a + b * k, n, acc)
    left = a + b * k - b * (k // 2)
    show(k // 2, [left // BASE**i % BASE for i in range(n + 1)] + acc[n + 1 :])
    show((a > b) - (a < b) + 1, acc)
    show((b.bit_length() + 63) // 64, rows)


for case in range(110):
    tried(case + 1, case % 11, case // 11 % 5)
