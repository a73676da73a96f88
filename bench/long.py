#!/usr/bin/env python3
"""Prints a long session for timing the rehearse program.

    bench/long.py [ORDERS [KIND]] > long.in        (100,000 orders, mixed, if not given)

First an orderly evening over four districts and 64 jobs, whose record numbers
follow from the rules: districts 0 to 2 elect a leader, district 3 only has a
candidate; 48 jobs of one district are finished, 16 jobs of two districts wait
for district 3. Then the records of that evening are carried again and again.
About half of these carries are done (ACCEPTs that wait, votes after a cut, and
a few that write records until the post is full) and half are refused.
The session is the same each time.

That is the kind mixed. In the kind smooth nearly all carries are done, in the
kind refused nearly all are refused, and in the kind garbage nine lines of ten
are no orders.
"""
import random
import sys

lines = []
written = 0     # records in the post


def order(text, records=0):
    global written
    lines.append(text)
    written += records
    return range(written - records, written)


def carry(k, records=0):
    return order("carry %d" % k, records)


def elect(district):
    """Box 3d leads: its NEWLEADERs, votes and NEW_STATEs."""
    asked = order("stand %d" % (3 * district), 3)
    votes = [carry(k, 1)[0] for k in asked]
    carry(votes[0])
    states = carry(votes[1], 2)
    answers = [carry(k, 1)[0] for k in states]
    carry(answers[0])
    return list(asked) + votes + list(states) + answers


def finish(job):
    """A job of one district with a leader, from post to the three lists."""
    posted = order("post %d" % job, 3)
    accepts = carry(posted[0], 3)
    acks = [carry(k, 1)[0] for k in accepts]
    carry(acks[0])
    delivers = carry(acks[1], 3)
    for k in delivers:
        carry(k)
    return list(posted), list(accepts), acks + list(delivers)


def wait(job):
    """A job that also names district 3, where nobody leads."""
    posted = order("post %d" % job, 6)
    accepts = carry(posted[0], 6)
    for k in accepts[:3]:
        carry(k)
    return list(posted), list(accepts)


def evening():
    masks = [1 << j % 3 if j < 48 else 8 | 1 << j % 3 for j in range(64)]
    lines.extend(["districts 4"] + ["job %d" % m for m in masks])
    refused, waiting, writing = [], [], []
    for district in range(3):
        refused += elect(district)
    asked = order("stand 9", 3)
    votes = [carry(k, 1)[0] for k in asked]
    for job in range(48):
        posted, accepts, done = finish(job)
        refused += posted[1:] + done
        writing += posted[:1] + accepts
    for job in range(48, 64):
        posted, accepts = wait(job)
        refused += posted[1:] + accepts[3:]
        waiting += accepts[:3]
    return refused + list(asked), waiting, writing, votes


# how often: refused carries, ACCEPTs that wait, carries that write, retries, garbage lines; the rest are votes after a cut
KINDS = {
    "mixed": (0.45, 0.35, 0.02, 0.01, 0.0),
    "smooth": (0.0, 0.7, 0.01, 0.01, 0.0),
    "refused": (0.97, 0.01, 0.0, 0.01, 0.0),
    "garbage": (0.05, 0.04, 0.0, 0.0, 0.9),
}


def garbage(rng):
    return rng.choice(["", "carry", "carry  1", "post 1 2", "carry 1234567890", "Carry 3", "retry 1", "job 1", "x" * 40, "cut 0 "])


def night(rng, count, shares, refused, waiting, writing, votes):
    bounds = [sum(shares[: i + 1]) for i in range(len(shares))]
    while len(lines) < count:
        dice = rng.random()
        if dice < bounds[0]:
            carry(rng.choice(refused))
        elif dice < bounds[1]:
            carry(rng.choice(waiting))
        elif dice < bounds[2]:
            lines.append("carry %d" % rng.choice(writing))
        elif dice < bounds[3]:
            lines.append("retry %d %d" % (rng.randrange(12), rng.randrange(64)))
        elif dice < bounds[4]:
            lines.append(garbage(rng))
        else:
            order("cut 9")
            vote = rng.choice(votes)
            carry(vote)
            carry(vote)


def session(count, kind):
    """The lines of a session of so many orders behind its plan."""
    del lines[:]
    global written
    written = 0
    night(random.Random(1), 65 + count, KINDS[kind], *evening())
    return lines[: 65 + count]


def main():
    count = int(sys.argv[1]) if len(sys.argv) > 1 else 100000
    kind = sys.argv[2] if len(sys.argv) > 2 else "mixed"
    print("\n".join(session(count, kind)))


if __name__ == "__main__":
    main()
