#!/usr/bin/env python3
"""Says what crates/daysearch must print.

Makes the routes and piles of the program again and finds their first days by going through all scenarios. Written from
docs/RULES.md alone and sharing nothing with the crates: the expected output comes from here, never from the program under
test. Run it at the top of the repository after a change of the rules: it writes crates/daysearch/stdout.
"""
from itertools import product

ROUTES = 200
TRAVEL, SERVE, DEMAND, FREE = 1, 2, 4, 8
CEILING = 10**9


class Random:
    def __init__(self):
        self.state = 1

    def below(self, bound):
        self.state = (self.state * 1664525 + 1013904223) % 2**32
        return self.state // 65536 % bound


def make_step(r):
    step = {'travel': 10 + r.below(30), 'travel_deviation': r.below(50), 'opens': r.below(80)}
    step['closes'] = step['opens'] + 80 + r.below(160)
    step.update(serve=r.below(20), serve_deviation=r.below(40))
    step.update(deliver=r.below(12), deliver_deviation=r.below(12))
    step.update(pickup=r.below(12), pickup_deviation=r.below(12))
    step['rest'] = r.below(3) == 0
    return step


def figure(step, name, marked):
    return step[name] + (step[name + '_deviation'] if marked else 0)


def in_time(figures, steps, marks):
    hour = figures['beginning']
    for step, mark in zip(steps, marks):
        arrival = hour + figure(step, 'travel', mark & TRAVEL)
        if arrival > step['closes']:
            return False
        hour = max(arrival, step['opens']) + figure(step, 'serve', mark & SERVE)
        if hour > CEILING:
            return False
    return True


def has_room(figures, steps, marks):
    picked = peak = 0
    for step, mark in zip(steps, marks):
        picked += figure(step, 'pickup', mark & DEMAND)
        peak = max(peak + figure(step, 'deliver', mark & DEMAND), picked)
    return peak <= figures['capacity']


def rests(figures, steps, marks):
    driven = 0
    for step, mark in zip(steps, marks):
        driven += figure(step, 'travel', mark & TRAVEL)
        if driven > figures['drive']:
            return False
        if step['rest']:
            driven = 0
    return True


def all_three(*route):
    return in_time(*route) and has_room(*route) and rests(*route)


def few_enough(figures, steps, marks):
    late = sum(1 for mark in marks if mark & (TRAVEL | FREE))
    return len(steps) <= figures['stops'] and late <= figures['late']


def sets(n, budget):
    """The sets of at most the budget's number of steps; a set that lacks the first step of all comes first."""
    return [s for s in product([0, 1], repeat=n) if sum(s) <= budget]


def first_day(accepts, figures, layers, steps, given):
    for scenario in product(*[sets(len(steps), budget) for _, budget in layers]):
        marks = list(given)
        for (mark_class, _), chosen in zip(layers, scenario):
            marks = [mark | mark_class * here for mark, here in zip(marks, chosen)]
        if not accepts(figures, steps, marks):
            return marks
    return None


def try_pile(r, name, classes, accepts):
    refused = marked = total = 0
    for _ in range(ROUTES):
        n = 1 + r.below(4)
        steps = [make_step(r) for _ in range(n)]
        given = [r.below(256) if r.below(8) == 0 else 0 for _ in range(n)]
        layers = [(mark_class, r.below(4)) for mark_class in classes]
        figures = {'beginning': r.below(20), 'capacity': 30 + r.below(40), 'drive': 70 + r.below(120),
                   'stops': 3 + r.below(3), 'late': r.below(5)}
        day = first_day(accepts, figures, layers, steps, given)
        if day is not None:
            refused += 1
            marked += day != given
            total += sum(place * mark for place, mark in enumerate(day, 1))
    return f'{name}: {ROUTES} routes, {refused} refused, {marked} by a layer\'s mark, sum of marks {total}, 0 differences\n'


def main():
    r = Random()
    lines = [
        try_pile(r, 'travel over time', [TRAVEL], in_time),
        try_pile(r, 'serve over travel over time', [SERVE, TRAVEL], in_time),
        try_pile(r, 'travel twice over time', [TRAVEL, TRAVEL], in_time),
        try_pile(r, 'the product', [TRAVEL, SERVE, DEMAND], all_three),
        try_pile(r, 'a free class over travel twice over a tally', [FREE, TRAVEL, TRAVEL], few_enough),
    ]
    with open('crates/daysearch/stdout', 'w') as out:
        out.writelines(lines)


if __name__ == '__main__':
    main()
