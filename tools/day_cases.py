#!/usr/bin/env python3
"""Makes the cases of crates/daycases and what the program must print for them.

A reader of day files of its own, written from docs/DAY-FILE.md alone and sharing nothing with the crates: the expected
output comes from here, never from the program under test. Run it at the top of the repository after a change of the
rules: it writes data/edits.txt, data/greatest.txt, data/rubbish.bin and stdout below crates/daycases.
"""
import random
import re

NUMBER = rb'(0|[1-9][0-9]{0,5})'
TIME, CRATES, BUDGET = (0, 100000), (0, 10000), (0, 8)
ANY = (0, 999999)
HEAD = [
    (rb'\(day\n', []),
    (rb'\(depot N N\)\n', [TIME, TIME]),
    (rb'\(capacity N\)\n', [CRATES]),
    (rb'\(drive N\)\n', [TIME]),
    (rb'\(budget travel N\)\n', [BUDGET]),
    (rb'\(budget serve N\)\n', [BUDGET]),
    (rb'\(budget demand N\)\n', [BUDGET]),
    (rb'\(stops N\)\n', [(1, 40)]),
]
STOP = (rb'\(stop N \(window N N\) \(serve N N\) \(deliver N N\) \(pickup N N\) \(rest N\)\)\n',
        [ANY, TIME, TIME, TIME, TIME, CRATES, CRATES, CRATES, CRATES, (0, 1)])
LEG = (rb'\(leg N N N N\)\n', [(0, 40), (0, 40), TIME, TIME])
END = (rb'\)\n', [])


def plan(n):
    """The lines of a day of n stops, each with the numbers that it has to begin with."""
    lines = [(form, []) for form in HEAD]
    lines += [(STOP, [k]) for k in range(1, n + 1)]
    lines += [(LEG, [i, j]) for i in range(n + 1) for j in range(n + 1) if i != j]
    return lines + [(END, [])]


def read(text):
    """None where the text is a day's, else the question and the line."""
    if len(text) > 65536:
        return (1, 0)
    at, line, n = 0, 0, 1
    while True:
        due = plan(n)
        if line == len(due):
            return None if at == len(text) else (6, line + 1)
        (form, bounds), turn = due[line]
        line += 1
        m = re.match(form.replace(b'N', NUMBER), text[at:])
        if not m:
            return (3, line)
        numbers = [int(g) for g in m.groups()]
        if any(not low <= x <= high for x, (low, high) in zip(numbers, bounds)):
            return (4, line)
        window = numbers if line == 2 else numbers[1:3] if form is STOP[0] else [0, 0]
        if numbers[:len(turn)] != turn or window[0] > window[1]:
            return (5, line)
        if line == 8:
            n = numbers[0]
        at += m.end()


def shown(answer, size):
    return '(read %d)' % size if answer is None else '(unread %d %d)' % answer


def greatest():
    """A day of 40 stops in which every number is as long as it may be."""
    out = ['(day', '(depot 100000 100000)', '(capacity 10000)', '(drive 100000)', '(budget travel 8)', '(budget serve 8)',
           '(budget demand 8)', '(stops 40)']
    for k in range(1, 41):
        out.append('(stop %d (window 100000 100000) (serve 100000 100000) (deliver 10000 10000) (pickup 10000 10000) (rest 1))' % k)
    for i in range(41):
        for j in range(41):
            if i != j:
                out.append('(leg %d %d 100000 100000)' % (i, j))
    return ('\n'.join(out + [')']) + '\n').encode()


# Each edit puts a text in the place of a line of day A; `-` takes the line away.
EDITS = '''
1 (day
1 (days
1 (day)
1  (day
1 (Day
1 -
2 (depot 0 100000)
2 (depot 0 100001)
2 (depot 100000 100000)
2 (depot 100001 100001)
2 (depot 5 4)
2 (depot 5 5)
2 (depot 999999 4)
2 (depot 1000000 4)
2 (depot 0 1000
2 (depot 0  1000)
2 (depot 0 1000) 
2 (depot 00 1000)
2 (depot +0 1000)
2 (depot -1 1000)
2 (depot 0 1000.)
2 (depot 0)
2 (depot 0 1 2)
2 (depot a 1000)
2 (depot  1000)
2 -
3 (capacity 020)
3 (capacity 0)
3 (capacity 10000)
3 (capacity 10001)
3 (capacity 100000)
3 (capacity 1000000)
3 (capacity )
3 (capacity)
3 capacity 20
3 (Capacity 20)
3 (drive 400)
4 (drive 100000)
4 (drive 100001)
4 (drive 0)
5 (budget travel 8)
5 (budget travel 9)
5 (budget serve 1)
5 (budget travel 08)
6 (budget serve 8)
6 (budget serve 9)
7 (budget demand 8)
7 (budget demand 9)
7 (budget  demand 1)
8 (stops 0)
8 (stops 1)
8 (stops 3)
8 (stops 40)
8 (stops 41)
8 (stops 02)
8 (stop 2)
9 (stop 2 (window 100 300) (serve 10 5) (deliver 8 3) (pickup 2 0) (rest 0))
9 (stop 0 (window 100 300) (serve 10 5) (deliver 8 3) (pickup 2 0) (rest 0))
9 (stop 41 (window 100 300) (serve 10 5) (deliver 8 3) (pickup 2 0) (rest 0))
9 (stop 999999 (window 100 300) (serve 10 5) (deliver 8 3) (pickup 2 0) (rest 0))
9 (stop 1000000 (window 100 300) (serve 10 5) (deliver 8 3) (pickup 2 0) (rest 0))
9 (stop 2 (window 100 300) (serve 10 5) (deliver 8 3) (pickup 2 0) (rest 2))
9 (stop 1 (window 100000 100000) (serve 10 5) (deliver 8 3) (pickup 2 0) (rest 0))
9 (stop 1 (window 100001 100001) (serve 10 5) (deliver 8 3) (pickup 2 0) (rest 0))
9 (stop 1 (window 0 100001) (serve 10 5) (deliver 8 3) (pickup 2 0) (rest 0))
9 (stop 1 (window 301 300) (serve 10 5) (deliver 8 3) (pickup 2 0) (rest 0))
9 (stop 1 (window 300 300) (serve 100000 5) (deliver 8 3) (pickup 2 0) (rest 0))
9 (stop 1 (window 100 300) (serve 100001 5) (deliver 8 3) (pickup 2 0) (rest 0))
9 (stop 1 (window 100 300) (serve 10 100000) (deliver 8 3) (pickup 2 0) (rest 0))
9 (stop 1 (window 100 300) (serve 10 100001) (deliver 8 3) (pickup 2 0) (rest 0))
9 (stop 1 (window 100 300) (serve 10 5) (deliver 10000 10000) (pickup 10000 10000) (rest 1))
9 (stop 1 (window 100 300) (serve 10 5) (deliver 10001 3) (pickup 2 0) (rest 0))
9 (stop 1 (window 100 300) (serve 10 5) (deliver 8 10001) (pickup 2 0) (rest 0))
9 (stop 1 (window 100 300) (serve 10 5) (deliver 8 3) (pickup 10001 0) (rest 0))
9 (stop 1 (window 100 300) (serve 10 5) (deliver 8 3) (pickup 2 10001) (rest 0))
9 (stop 1 (window 100 300) (serve 10 5) (deliver 8 3) (pickup 2 0) (rest 2))
9 (stop 1 (window 100 300) (serve 10 5) (deliver 8 3) (pickup 2 0) (rest 01))
9 (stop 1 (window 100 300) (serve 10 5) (deliver 8 3) (pickup 2 0))
9 (stop 1 (window 100 300) (deliver 8 3) (serve 10 5) (pickup 2 0) (rest 0))
9 (stop 1 (window 100 300)(serve 10 5) (deliver 8 3) (pickup 2 0) (rest 0))
9 -
10 (stop 1 (window 0 330) (serve 20 0) (deliver 6 4) (pickup 9 1) (rest 1))
10 (leg 0 1 100 50)
11 (leg 0 1 100000 100000)
11 (leg 0 1 100001 50)
11 (leg 0 1 100 100001)
11 (leg 0 2 100 50)
11 (leg 1 0 100 50)
11 (leg 0 0 100 50)
11 (leg 0 3 100 50)
11 (leg 0 40 100 50)
11 (leg 0 41 100 50)
11 (leg 40 1 100 50)
11 (leg 41 1 100 50)
11 (leg 41 41 100001 50)
11 (leg 00 1 100 50)
11 (leg 0 1 100)
11 -
12 (leg 1 0 100 50)
16 (leg 2 2 120 60)
16 -
17 ))
17 (
17 
17 -
17 (leg 2 1 120 60)
'''


def main():
    day = open('crates/daycheck/data/day.txt', 'rb').read()
    lines = day.split(b'\n')
    edits = [e for e in EDITS.split('\n') if e]
    # what a file of plain lines cannot show: a tab and a carriage return
    edits += ['2 (depot\t0 1000)', '3 (capacity 20)\r']
    out = []
    for e in edits:
        number, _, new = e.partition(' ')
        k = int(number) - 1
        middle = [] if new == '-' else [new.encode()]
        text = b'\n'.join(lines[:k] + middle + lines[k + 1:])
        out.append('%s: %s' % (e, shown(read(text), len(text))))
    big = greatest()
    rng = random.Random(1)
    rubbish = bytes(rng.randrange(256) for _ in range(4096))
    specials = [
        ('day A', day),
        ('nothing', b''),
        ('no line end', day[:-1]),
        ('one byte more', day + b'x'),
        ('one line end more', day + b'\n'),
        ('twice', day + day),
        ('filled up to 65536 bytes', day + b'x' * (65536 - len(day))),
        ('filled up to 65537 bytes', day + b'x' * (65537 - len(day))),
        ('digits up to 65536 bytes', b'9' * 65536),
        ('greatest', big),
        ('greatest without its end', big[:-2]),
        ('greatest filled up to 65536 bytes', big + b' ' * (65536 - len(big))),
        ('rubbish', rubbish),
        ('rubbish after day A', day + rubbish),
    ]
    for name, text in specials:
        out.append('%s: %s' % (name, shown(read(text), len(text))))
    # each proper beginning of day A is out of form where it breaks off
    for size in range(len(day)):
        assert read(day[:size]) == (3, day[:size].count(b'\n') + 1)
    out.append('beginnings of day A: %d out of form' % len(day))
    out.append('other tables: (unread 2 0)')
    folder = 'crates/daycases/'
    open(folder + 'data/edits.txt', 'wb').write(('\n'.join(edits) + '\n').encode())
    open(folder + 'data/greatest.txt', 'wb').write(big)
    open(folder + 'data/rubbish.bin', 'wb').write(rubbish)
    open(folder + 'data/day.txt', 'wb').write(day)
    open(folder + 'stdout', 'wb').write(('\n'.join(out) + '\n').encode())


main()
