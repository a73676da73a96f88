#!/usr/bin/env python3
"""Prints a random session for the rehearse program.

    bench/fuzz.py SEED ORDERS > session.in

The same seed and count always give the same bytes. The script doesn't know
what the post holds, only how many records stands and posts have put there for
sure. It walks a cursor through the record numbers, as a line that loses,
doubles and swaps some records would, up to a guess at the end of the post, and
gives a new order when the cursor is there. Each seed has its own mood: calm or
many leader changes, short or long memory, clean or with garbage lines, and
some have a bad plan.
"""
import random
import sys

WORDS = [b"districts", b"job", b"post", b"stand", b"retry", b"cut", b"carry"]


def garbage(rng):
    """One line that is mostly unreadable, or readable in an odd way."""
    word = rng.choice(WORDS)
    number = str(rng.randrange(20)).encode()
    return rng.choice([
        lambda: bytes(rng.choice(b" 0123456789abcrtyposjn\r\t\0\xff") for _ in range(rng.randrange(45))),
        lambda: word,
        lambda: word + b" ",
        lambda: word + b"  " + number,
        lambda: b" " + word + b" " + number,
        lambda: word + b" " + number + rng.choice([b" ", b"\r", b"\0", b"x", b" 1", b" 1 1", b"."]),
        lambda: word + b" " + number.zfill(rng.choice([2, 8, 9, 10, 11])),
        lambda: word + b" " + rng.choice([b"999999999", b"1000000000", b"4294967296", b"-1", b"+1", b"x"]),
        lambda: b"retry " + number.zfill(9) + b" " + number.zfill(rng.choice([9, 10])),
        lambda: word.upper() + b" " + number,
        lambda: rng.choice([b"", b"x" * rng.choice([30, 31, 32, 33, 64, 5000])]),
        lambda: b"districts " + number,
        lambda: b"job " + number,
    ])()


class Mood:
    def __init__(self, rng):
        self.districts = rng.choice([1, 1, 2, 2, 3, 4])
        self.jobs = rng.choice([1, 2, 3, 5, 8, 16, 64])
        full = 2 ** self.districts
        few = rng.random() < 0.5
        self.masks = [1 << rng.randrange(self.districts) if few and rng.random() < 0.7
                      else rng.randrange(1, full) for _ in range(self.jobs)]
        self.factor = rng.choice([1.5, 2.0, 2.5, 3.0, 4.0])
        self.stand = rng.choice([0.01, 0.03, 0.1, 0.4])
        self.cut = rng.choice([0.0, 0.005, 0.03])
        self.old = rng.choice([0.02, 0.1, 0.3])
        self.lose = rng.choice([0.0, 0.02, 0.1])
        self.garbage = rng.choice([0.0, 0.0, 0.0, 0.03])
        self.bad_plan = rng.random() < 0.06


def plan_lines(rng, mood):
    lines = [b"districts %d" % mood.districts] + [b"job %d" % m for m in mood.masks]
    if mood.bad_plan:
        odd = rng.choice([b"districts 0", b"districts 5", b"job 0", b"job 16", b"job 999999999",
                          b"cut 0", b"post x", b"job 1", b"districts 2"])
        lines.insert(rng.randrange(len(lines) + 1), odd)
    if mood.garbage:
        lines.insert(rng.randrange(len(lines) + 1), garbage(rng))
    return lines


def new_order(rng, mood, box):
    """An order that writes records, and how many for sure."""
    if rng.random() < mood.stand:
        return b"stand %d" % box, 3
    job = rng.randrange(mood.jobs)
    if rng.random() < 0.15:
        return b"retry %d %d" % (box, job), 0
    return b"post %d" % job, 3 * bin(mood.masks[job]).count("1")


def carry_old(rng, cursor):
    back = int(rng.expovariate(rng.choice([0.1, 0.01, 0.001])))
    return b"carry %d" % max(0, cursor - 1 - back)


def odd_order(rng, cursor):
    return rng.choice([
        b"carry %d" % (cursor + rng.randrange(12)),
        b"%s %d" % (rng.choice([b"post", b"stand", b"cut"]), rng.randrange(70)),
        b"retry %d %d" % (rng.randrange(14), rng.randrange(70)),
    ])


def orders(rng, mood, count):
    cursor = sure = 0
    for i in range(count):
        box = rng.randrange(3 * mood.districts)
        if i < mood.districts:
            sure += 3
            yield b"stand %d" % (3 * i + box % 3)
        elif rng.random() < mood.garbage:
            yield garbage(rng)
        elif rng.random() < mood.cut:
            yield b"cut %d" % box
        elif rng.random() < 0.01:
            yield odd_order(rng, cursor)
        elif rng.random() < mood.old and cursor > 0:
            yield carry_old(rng, cursor)
        elif cursor >= sure * mood.factor or rng.random() < 0.01:
            order, records = new_order(rng, mood, box)
            sure += records
            yield order
        else:
            yield b"carry %d" % cursor
            cursor += 1
            while rng.random() < mood.lose:
                cursor += 1
            if rng.random() < 0.003:
                cursor = min(cursor, sure)      # the guess may have gone too far


def main():
    rng = random.Random(int(sys.argv[1]))
    mood = Mood(rng)
    lines = plan_lines(rng, mood) + list(orders(rng, mood, int(sys.argv[2])))
    end = b"" if rng.random() < 0.2 else b"\n"
    sys.stdout.buffer.write(b"\n".join(lines) + end)


if __name__ == "__main__":
    main()
