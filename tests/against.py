#!/usr/bin/env python3
"""Plays random auctions in the desk and in tests/model.py, compares every answer and every box, and says how often each command
was answered how, which remarks were met how often, and which never. Of help the first line is compared.

    tests/against.py [SESSIONS [BOXES [SEED]]]
    tests/against.py alone [SESSIONS [SEED]]      the model by itself, without a desk

Ten sessions, or ten boxes, are a test; the last line is `N passed, M failed`. Every state that the model comes to has to pass its own test
of standing. The desk is ./desk, or the program that DESK names. The gate runs it by tests/second.
"""
import collections
import glob
import os
import random
import re
import subprocess
import sys
import tempfile

sys.dont_write_bytecode = True
sys.path.insert(0, os.path.dirname(os.path.abspath(__file__)))
import model

ROOT = os.path.dirname(os.path.dirname(os.path.abspath(__file__)))
DESK = os.environ.get('DESK', os.path.join(ROOT, 'desk'))


class Settings:
    def __init__(self, rnd):
        n = rnd.choice([1, 2, 2, 3, 3, 4, 5, 8])
        m = rnd.choice([1, 2, 3, 3, 4, 4, 5, 6, 8, 12, 32])
        most = rnd.choice([1, 2, 2, 3, 3, 4, 6, 10, 30, 200])
        self.targets = sorted((rnd.randint(1, most) for _ in range(n)), reverse=True)
        self.caps = [t if rnd.random() < .6 else rnd.randint(1, t) for t in self.targets]
        price = rnd.choice([1, 2, 5, 20, 300, 1000, 14500, 99999])
        self.prices = [price if rnd.random() < .5 else rnd.randint(1, price) for _ in range(n)]
        volume = sum(self.targets)
        self.statewide = volume if rnd.random() < .3 else rnd.randint(1, volume)
        self.eligible = [self.statewide if rnd.random() < .4 else rnd.randint(1, self.statewide) for _ in range(m)]
        self.rows, percent = [], 0
        for _ in range(rnd.randint(1, 8)):
            self.rows.append([percent, rnd.choice([50, 100, 175, 300, 425, 500, rnd.randint(50, 500)])])
            percent += rnd.choice([1, 5, 20, 50, 100, 9000])
            if percent > 60000:
                break
        kind = rnd.random()
        if kind < .2:  # a thin first round, with room for a cutback; one that makes a product at price 1 too much stops
            n = rnd.randint(2, 4)
            self.targets = sorted((rnd.randint(2, 9) for _ in range(n)), reverse=True)
            self.caps = [rnd.randint(t // 2 + 1, t) for t in self.targets]
            self.prices = [1 if rnd.random() < .3 else rnd.choice([2, 1000, 14500]) for _ in range(n)]
            self.statewide = sum(self.targets) * rnd.randint(40, 70) // 100
            self.eligible = [self.statewide] * rnd.choice([2, 2, 3])
        elif kind < .5:  # many tranches of few bidders, and prices that fall far: lots are retained in part and outbid
            n = rnd.choice([1, 2, 2, 2, 3])
            self.targets = sorted((rnd.choice([4, 6, 9, 15, 40, 200]) for _ in range(n)), reverse=True)
            self.caps = list(self.targets)
            self.prices = [rnd.choice([100, 1000, 1000, 99999]) for _ in range(n)]
            self.statewide = sum(self.targets)
            self.eligible = [rnd.randint(self.statewide // 2 + 1, self.statewide) for _ in range(rnd.choice([2, 3, 3, 4, 5]))]
            self.rows = [[0, rnd.choice([300, 500])]]
        elif kind < .75:  # few bidders for small products, much like setting T: switches are denied, outbid and deemed bid
            n = rnd.choice([2, 2, 3])
            self.targets = self.caps = [2] * n
            self.prices = [1000] * n
            self.statewide = 2 * n
            self.eligible = [rnd.choice([2, 3, 3]) for _ in range(rnd.choice([3, 3, 4]))]

    def spoil(self, rnd):
        """One setting out of its limits, or not far from them."""
        j, i, k = rnd.randrange(len(self.targets)), rnd.randrange(len(self.eligible)), rnd.randrange(len(self.rows))
        what = rnd.randrange(9)
        if what == 0:
            self.targets[j] = rnd.choice([0, 201, self.targets[max(0, j - 1)] + 1, 256, 65536, 4294967295])
        elif what == 1:
            self.caps[j] = rnd.choice([0, self.targets[j] + 1, 201, 65536])
        elif what == 2:
            self.prices[j] = rnd.choice([0, 100000, 65536, 16777217, 4294967295])
        elif what == 3:
            self.statewide = rnd.choice([0, sum(self.targets) + 1, 65536 + self.statewide])
        elif what == 4:
            self.eligible[i] = rnd.choice([0, self.statewide + 1, 65536 + self.eligible[i]])
        elif what == 5:
            self.rows[k][0] = rnd.choice([self.rows[k][0] + 1, self.rows[max(0, k - 1)][0], 60001, 65536, 4294967295])
        elif what == 6:
            self.rows[k][1] = rnd.choice([0, 49, 501, 65536, 4294967295])
        elif what == 7:  # nothing, or one number, is left for the last row
            self.rows = [[0, 100], [rnd.choice([59998, 59999, 60000]), 100], [rnd.choice([5, 60000, 60001, 65536]), 100]]
        else:
            self.targets[j], self.caps[j] = 1, rnd.choice([1, 2])

    def line(self, rnd):
        words = ['open', rnd.choice(['kwh', 'mwday']), self.statewide]
        often = rnd.choice([0, 0, 0, .5, 1])  # how often the key word stands before a further group
        products = list(zip(self.targets, self.caps, self.prices))
        for key, groups in (('product', products), ('bidder', [(e,) for e in self.eligible]), ('row', self.rows)):
            for k, group in enumerate(groups):
                words += [key] * (k == 0 or rnd.random() < often)
                words += group
        return ' '.join(map(str, words))


def opening(rnd):
    return Settings(rnd).line(rnd)


def spoiled_opening(rnd):
    settings = Settings(rnd)
    settings.spoil(rnd)
    return settings.line(rnd)


def mood_of(rnd, a):
    """What most bidders are after in a round: to leave a product that ticked, to exchange all that ticked for others, to go into one where
    something is kept, or nothing."""
    ticked = [j for j in range(a.products) if a.ticked(j)]
    kept = [j for j in range(a.products) if a.kept(j) > 0]
    moods = [('', None)] + [('leave', j) for j in ticked] * 2 * (len(ticked) > len(kept)) + [('enter', j) for j in kept] * 3 * bool(ticked)
    moods += [('exchange', None)] * len(ticked) * (len(ticked) > 1)
    return rnd.choice(moods) if a.round > 1 else moods[0]


def good_bid(rnd, a, i, mood=('', None)):
    """A bid of bidder i that passes 8 to 13, where one is found."""
    n = a.products
    own = a.record[i]
    room = sum(c.g for c in own) + a.free[i]
    b = []
    for j in range(n):
        g, top = own[j].g, max(0, a.cap[j] - own[j].d - own[j].r)
        move = rnd.random()
        if a.round == 1:
            b.append(top if move < .6 else rnd.randint(0, top))
        elif mood == ('leave', j) and move < .9:
            b.append(rnd.randint(0, g // 2))
        elif mood[0] == 'leave' and move < .8:
            b.append(g)
        elif mood[0] == 'exchange' and a.ticked(j):
            b.append(0 if move < .5 else top if move < .9 else g)
        elif mood == ('enter', j) and move < .9:
            b.append(min(max(g, top), g + rnd.choice([1, 2, 3, 7, 20])))
        elif mood[0] == 'enter' and a.ticked(j) and move < .9:
            b.append(max(0, g - rnd.choice([1, 2, 3, 7, 20])))
        elif a.ticked(j):
            b.append(g if move < .4 else max(0, g - rnd.choice([1, 1, 2, 3, g // 2, g])) if move < .85 else rnd.randint(0, top))
        else:
            b.append(g if move < (.2 if own[j].d else .4) else min(max(g, top), g + rnd.choice([1, 1, 2, 3, 7, 20])))
    order = list(range(n))
    rnd.shuffle(order)
    for j in order:
        over = sum(b) - room
        low = 0 if a.ticked(j) else own[j].g
        if over > 0 and b[j] > low:
            b[j] = max(low, b[j] - over)
    R = [max(0, own[j].g - b[j]) for j in range(n)]
    I = [max(0, b[j] - own[j].g) for j in range(n)]
    s = max(0, sum(I) - a.free[i])
    w = sum(R) - s
    withdrawn = [0] * n
    rnd.shuffle(order)
    for j in order:
        take = min(R[j], w)
        withdrawn[j] = take
        w -= take
    lots = [some_lots(rnd, a, j, withdrawn[j]) for j in range(n)]
    priority = [0] * n
    if s > 0:
        up = [j for j in range(n) if I[j] > 0]
        rnd.shuffle(up)
        for k, j in enumerate(up):
            priority[j] = k + 1
    return [[b[j], lots[j], priority[j]] for j in range(n)]


def some_lots(rnd, a, j, count):
    """So many tranches withdrawn, in one to four lots with prices that rise; mostly of few prices, so that bidders tie."""
    p, q = a.p[j], a.q[j]
    if count == 0 or p == q:
        return [(count, 0)] * (count > 0)
    few = {q, p + 1, min(q, p + 2), (p + q + 1) // 2, max(p + 1, q - 1)}
    prices = list(few) + [rnd.randint(p + 1, q)] if rnd.random() < .8 else [rnd.randint(p + 1, q) for _ in range(4)]
    many = min(count, len(set(prices)), rnd.choice([1, 2, 3, 4, 4, 4]))
    cuts = sorted(rnd.sample(range(1, count), many - 1))
    counts = [high - low for low, high in zip([0] + cuts, cuts + [count])]
    return list(zip(counts, sorted(rnd.sample(sorted(set(prices)), many))))


def wrong_lots(rnd, a, j, lots):
    """Lots against 11 or 12, mostly in one way."""
    p, q = a.p[j], a.q[j]
    lots, k = list(lots) or [(0, 0)], rnd.randrange(max(1, len(lots)))
    count, x = lots[k]
    what = rnd.choice(['gap', 'equal', 'falling', 'unused', 'low', 'high', 'more', 'less', 'large', 'behind', 'shifted'])
    if what == 'gap' and len(lots) < 4:
        lots.insert(rnd.randrange(len(lots)), (0, rnd.choice([0, 0, x])))
    elif what in ('equal', 'falling') and count > 1 and len(lots) < 4:
        part = rnd.randrange(1, count)
        lots[k:k + 1] = [(part, x), (count - part, x if what == 'equal' else max(0, x - 1))]
    elif what == 'falling':
        lots = list(reversed(lots))
    elif what in ('equal', 'unused'):
        lots[rnd.choice([k, -1])] = (rnd.choice([0, count]), rnd.choice([1, p, p + 1, q, x]))
        if len(lots) < 4:
            lots.append((0, rnd.choice([1, p, q, x, 131071])))
    elif what in ('low', 'high'):
        lots[k] = (count, rnd.choice([p, 0, p]) if what == 'low' else rnd.choice([q + 1, q + 1, 131071]))
    elif what == 'more':
        lots[k] = (min(255, count + rnd.choice([1, 1, 2])), x or q)
    elif what == 'less':
        lots[k] = (max(0, count - 1), x)
    elif what == 'large':  # 256 more in all, so that the last byte of the sum is right
        lots = (lots + [(0, q)] * 4)[:4]
        over = 256
        for k, (count, x) in enumerate(lots):
            more = min(over, 255 - count) if rnd.random() < .7 or k == 3 else min(over, 255 - count, rnd.randrange(256))
            lots[k] = (count + more, x)
            over -= more
    elif what == 'behind':  # what is behind a gap counts for 11
        lots = (lots[:2] + [(0, 0)] * 4)[:3] + [(rnd.choice([1, 2, 255]), q)]
    else:
        lots = ([(0, 0)] + lots)[:4]
    return lots


NUMBERS = [0, 0, 1, 1, 2, 3, 5, 7, 8, 31, 32, 200, 201, 255, 256, 257, 4095, 4096, 65535, 65536, 99999, 100000, 131071, 131072,
           4294967295]


def spoiled_fields(rnd, a, lines):
    lines = [list(l) for l in lines]

    def near(v):
        return max(0, v + rnd.choice([-1, 1, 1, 2])) if rnd.random() < .8 else rnd.choice(NUMBERS)
    for _ in range(rnd.choice([1, 1, 2])):
        j, k = rnd.randrange(len(lines)), rnd.randrange(3)
        if k == 1:
            lots = list(lines[j][1]) + [(0, 0)] * (len(lines[j][1]) < 4)
            at = rnd.randrange(len(lots))
            count, x = lots[at]
            lots[at] = (near(count), x) if rnd.random() < .5 else (
                count, rnd.choice([0, a.p[j], a.p[j] + 1, a.q[j], a.q[j] + 1, rnd.choice(NUMBERS)]))
            lines[j][1] = lots
        else:
            lines[j][k] = near(lines[j][k])
    return lines


def against_a_rule(rnd, a, i, lines):
    """A bid against one of the rules 8 to 13, as far as the auction has room for that."""
    lines = [list(l) for l in lines]
    own, places = a.record[i], list(range(a.products))
    rnd.shuffle(places)
    reduced = [j for j in places if lines[j][0] < own[j].g]
    raised = [j for j in places if lines[j][0] > own[j].g]
    withdrawn = [j for j in places if lines[j][1]]
    fixed = [j for j in places if own[j].g > 0 and not a.ticked(j)]
    switched = any(l[2] for l in lines)
    what = rnd.choice(['cap', 'room'] + ['fixed'] * 3 * bool(fixed) + ['more', 'exit', 'priority'] + ['lots'] * 9 * bool(withdrawn)
                      + ['others', 'numbers', 'numbers'] * 2 * switched + ['numbers'] * 30 * (switched and len(raised) > 1))
    if what == 'cap':
        j = places[0]
        lines[j][0] = a.cap[j] - own[j].d - own[j].r + rnd.choice([1, 1, 2])
    elif what == 'fixed':
        lines[fixed[0]][0] = own[fixed[0]].g - 1
    elif what == 'room':
        for j in places:
            lines[j][0] = a.cap[j] - own[j].d - own[j].r
    elif what == 'more':
        j = (reduced or places)[0]
        lines[j][1] = wrong_lots(rnd, a, j, lines[j][1] or [(1, a.q[j])])
    elif what == 'lots':
        lines[withdrawn[0]][1] = wrong_lots(rnd, a, withdrawn[0], lines[withdrawn[0]][1])
    elif what == 'exit':
        for j in [j for j in places if j not in withdrawn][:1]:
            lines[j][1] = [(0, 0)] * rnd.choice([0, 0, 1, 3]) + [(0, rnd.choice([1, a.p[j], a.q[j]]))]
    elif what in ('priority', 'others'):
        for j in [j for j in places if j not in raised][:1]:
            lines[j][2] = rnd.randint(1, 7)
    else:
        same = len(raised) > 1 and rnd.random() < .8
        for j in raised if same else raised[:1]:
            lines[j][2] = 1 if same else rnd.choice([0, 2, 7])
    return lines


def card_of(n, bidder, round, lines):
    return model.write_card(n, bidder, round, model.eight([model.Line(b, model.four(lots), k) for b, lots, k in lines]))


def spoiled_card(rnd, a, i, lines):
    """A card of another length, bidder or round, or with filling bits."""
    what = rnd.randrange(5)
    round = a.round + (rnd.choice([-1, 1]) if what == 0 else 0)
    bidder = rnd.randint(min(31, a.bidders), 31) if what == 1 else i
    card = bytearray(card_of(a.products, bidder, round, lines))
    if what == 2:
        card = card[:rnd.randint(1, len(card) - 1)]
    elif what == 3:
        card += bytes(rnd.randint(1, 9))
    elif what == 4:  # with one product there are none, and this is a priority
        card[-1] |= 1 << rnd.randrange(max(1, 8 * len(card) - model.card_bits(a.products)))
    return 'file ' + bytes(card).hex()


def large_fields(rnd, a, i, lines):
    """A bid of which one field does not fit its bits."""
    lines = [list(l) for l in lines]
    j, k = rnd.randrange(len(lines)), rnd.choice([0, 1, 1, 1, 1, 2, 3])
    if k == 3:
        return bid_line(rnd, rnd.choice([32, 255, 256, 4294967295]), lines)
    if k == 1:
        lots = list(model.four(lines[j][1]))
        at = rnd.randrange(4)
        lots[at] = rnd.choice([(rnd.choice([256, 257, 65535, 65536, 65537, 4294967295]), lots[at][1]),
                               (lots[at][0], rnd.choice([131072, 131073, 262143, 4294967295]))])
        lines[j][1] = lots
    else:
        lines[j][k] = rnd.choice(([256, 65536], None, [8, 255, 256])[k])
    return bid_line(rnd, i, lines)


def wrong_order(rnd, m):
    """An order of m bidders or products that is mostly wrong, in one or more ways."""
    draw = list(range(m))
    rnd.shuffle(draw)
    for _ in range(rnd.choice([1, 1, 1, 2, 3])):
        what = rnd.randrange(4)
        if what == 0 and draw:
            draw.pop()
        elif what == 1 and draw:
            draw.insert(rnd.randrange(len(draw) + 1), rnd.choice(draw))
        elif what == 2:
            draw.insert(rnd.randrange(len(draw) + 1), rnd.choice([m, m + 1, 31, 32, 254, 255, 256, 65536, 4294967295]))
        elif draw:
            draw[rnd.randrange(len(draw))] = rnd.choice([0, m - 1, m, 255])
    if rnd.random() < .1:
        draw += [rnd.choice([0, m]) for _ in range(rnd.choice([40, 41]) - len(draw))]
    return draw


def wrong_draw(rnd, m):
    return ' '.join(['calculate'] + list(map(str, wrong_order(rnd, m))))


def ordering(rnd, a):
    """What follows the overrides: in half of the cases an order of the products, mostly one that fits."""
    if rnd.random() < .5:
        return ''
    order = rnd.sample(range(a.products), a.products)
    if rnd.random() < .15:
        order = rnd.choice([[], wrong_order(rnd, a.products), wrong_order(rnd, a.products), wrong_order(rnd, a.products)])
    return ' '.join(['', 'order'] + list(map(str, order)))


def calculation(rnd, a, line):
    """A draw and what may follow it."""
    return line + overriding(rnd, a) + ordering(rnd, a)


def overriding(rnd, a):
    """What follows a draw: in a third of cases up to three overrides, mostly within the limits and of products in use."""
    if rnd.random() < .65:
        return ''
    words = ['', 'override']
    for j in rnd.sample(range(a.products), min(a.products, rnd.choice([0, 1, 1, 1, 2, 2, 3]))):
        if rnd.random() < .06:
            j = rnd.choice([0, a.products, 7, 7, 8, 255, 256, 4294967295, 4294967296])
        points = rnd.choice([1, 2, 50, 300, 999, 1000, 1000] + [rnd.randint(1, 1000)] * 7)
        if rnd.random() < .1:
            points = rnd.choice([0, 0, 1001, 1001, 65535, 65536, 65537, 66536, 4294967295, 4294967297, 10 ** 30])
        words += [j, points]
    if rnd.random() < .05:
        words += words[2:4]
    if rnd.random() < .03:
        words.pop()
    return ' '.join(map(str, words))


GIVEN = ['Alpha', 'Beta', 'Beta', 'a', 'A  B', 'PSE&G', 'Z\u00fcrich', '- -', '0', 'bidder 0', 'x' * 24, '\u00e9' * 12, '-', '-', '{0}',
         '#', 'all']


def name_line(rnd, a):
    """Mostly a name for a bidder or a product."""
    kind = rnd.choice(['bidder', 'bidder', 'product'])
    n = rnd.randrange(a.bidders if kind == 'bidder' else a.products)
    line = 'name %s %d %s' % (kind, n, rnd.choice(GIVEN))
    if rnd.random() < .8:
        return line
    far = rnd.choice([a.bidders, a.products, 8, 32, 4294967295, 4294967296])
    rest = rnd.choice(['', '   ', 'y' * rnd.choice([25, 26, 300]), '\u00e9' * 13, '(A', 'A)', 'A (B) C', '  A B  \t'])
    return rnd.choice(['name', 'name ', 'name all 0 A', 'name ' + kind, 'name %s x A' % kind, 'name %s -' % kind,
                       'name %s %d A' % (kind, far), 'NAME bidder 0 A', 'names 0', 'names all', spoiled_text(rnd, line)]
                      + 6 * ['  name   %s  0%d %s' % (kind, n, rest)])


def new_line(rnd, a):
    """One of the commands that look at who has filed, or of those for names."""
    i = rnd.randrange(a.bidders)
    wrong = rnd.choice(['missing 0', 'filed x', 'filed 0 1', 'filed all', 'report all 0', 'report ALL', 'report alls', 'filed 4294967296'])
    return rnd.choice(['missing', 'missing', 'filed', 'filed', 'filed %d' % i, 'filed %d' % i, 'filed %d' % i,
                       'filed %d' % rnd.choice(NUMBERS), 'report all', 'report all', 'names', name_line(rnd, a), name_line(rnd, a),
                       name_line(rnd, a), wrong])


def good_cutback(rnd, a):
    """Revised targets and caps, two numbers a product, of which none is against a rule."""
    n = a.products
    target = a.target[:n]
    spare = sum(target) - a.statewide
    for _ in range(rnd.choice([0, 1, 5, 20, 20])):
        j = rnd.randrange(n)
        least = target[j + 1] if j + 1 < n else 1
        most = max(0, min(spare, target[j] - least))
        less = rnd.choice([1 if most else 0, most, rnd.randint(0, most)])
        target[j] -= less
        spare -= less
    lower = rnd.choice([0, .3, .6, 1])
    caps = [rnd.randint(1, max(1, min(c, t))) if rnd.random() < lower else min(c, t) for t, c in zip(target, a.cap)]
    return [v for pair in zip(target, caps) for v in pair]


def spoiled_cutback(rnd, a, numbers):
    numbers = list(numbers)
    if rnd.random() < .3:  # too small a volume
        return [1] * len(numbers)
    for _ in range(rnd.choice([1, 1, 2])):
        k = rnd.randrange(len(numbers))
        j = k // 2
        before = a.cap[j] if k % 2 else a.target[j]
        numbers[k] = rnd.choice([0, 0, before, before + 1, before + 1, numbers[max(0, 2 * j - 2)] + 1, max(0, numbers[k] - 1),
                                 numbers[k] + 1, numbers[2 * j] + k % 2, rnd.choice(NUMBERS)])
    return numbers


def cutback_line(numbers):
    return 'cutback ' + ' '.join(' %d %d' % pair for pair in zip(numbers[0::2], numbers[1::2]))


def cutback(rnd, a):
    """A cutback in the auction: mostly one that may be given in round 2, and at times a wrong one or a line that is none."""
    numbers = good_cutback(rnd, a)
    if rnd.random() < .5:
        numbers = spoiled_cutback(rnd, a, numbers)
    line = cutback_line(numbers)
    return spoiled_text(rnd, line) if rnd.random() < .08 else line


def lots_text(rnd, lots):
    """The same lots in one of the forms that are read: as it is written, with more lots of 0, or with zeros before the numbers."""
    text = model.as_text(model.four(lots))
    if rnd.random() < .9:
        return text
    more = list(lots) + [(0, 0)] * rnd.randint(0, 4 - len(lots))
    return ','.join('%s%d@%s%d' % (rnd.choice(['', '0', '00000000000']), count, rnd.choice(['', '0']), x) for count, x in more) or '-'


def group_text(rnd, b, lots, priority):
    """What is typed of one product: three words, or where one lot at most is given, at times four numbers."""
    if len(lots) <= 1 and rnd.random() < .4:
        return '  %d %d %d %d' % ((b,) + (list(lots) + [(0, 0)])[0] + (priority,))
    return '  %d %s %d' % (b, lots_text(rnd, lots), priority)


def bid_line(rnd, i, lines):
    return 'bid %d' % i + ''.join(group_text(rnd, *l) for l in lines)


NO_LOTS = ['3@', '@5', '@', '3@5,', ',3@5', '3@5,,2@6', '3@5@6', '3@@5', '3@-5', '-3@5', '--', '-,3@5', '3@5,-', '-@5', '3@x', 'x@5',
           '3@5;2@6', '3@5.0', '3.0@5', '3@5,2', '2,3@5', '1@1,1@2,1@3,1@4,1@5', '0@0,0@0,0@0,0@0,0@0', '4294967296@5', '3@4294967296',
           '99999999999999999999@5', '3@5,2@99999999999999999999', '3@5,2@6,', '+3@5', '3@0x5', '@@@', ',', ',,,', '3@5,x@',
           '1@1,1@2,1@3,1@4,x']


def without_lots(rnd, i, lines):
    """A bid in which a word that should be lots is none."""
    groups = [group_text(rnd, *l) for l in lines]
    j = rnd.randrange(len(lines))
    groups[j] = '  %d %s %d' % (lines[j][0], rnd.choice(NO_LOTS), lines[j][2])
    return 'bid %d' % i + ''.join(groups)


def spoiled_text(rnd, line):
    words = line.split(' ')
    for _ in range(rnd.choice([1, 1, 2])):
        k = rnd.randrange(len(words))
        what = rnd.randrange(10)
        if what == 0:
            del words[k]
            words = words or ['count']
        elif what == 1:
            words.insert(k, words[k])
        elif what == 2:
            words[k] = rnd.choice(['x', '-1', '+1', '1.0', '4294967295', '4294967296', '99999999999999999999', '00000000000000007', '0x1',
                                   '99999999999x', '#', '0g', 'G', 'abc', 'AB', 'Fe0', '-', '1@1', '1@2,3@4', '0@0', '1@'])
        elif what == 3:
            words[k] = words[k].upper()
        elif what == 4:
            words[k] = words[k] + rnd.choice(['', ' ', '\t', '\r', '  ', '\x01', '\x7f', '\u00e9'])
        elif what == 5:
            words[k] = rnd.choice(['', ' ', '\t', '   ']) + words[k]
        elif what == 6:
            words.append(str(rnd.choice(NUMBERS)))
        elif what == 7:
            words = words[:k + 1]
        elif what == 8 and words[k]:
            p = rnd.randrange(len(words[k]))
            words[k] = words[k][:p] + rnd.choice('0123456789abcdefgzkwh-#@,') + words[k][p + 1:]
        else:
            words[k] = str(rnd.choice(NUMBERS))
    return ' '.join(words)


def folded(rnd, line):
    """The same line over several lines, each but the last with a backslash at its end; a remark is not gone on with."""
    words = line.split(' ')
    return words[0] + ''.join(rnd.choice([' ', ' ', ' \\\n', '\\\n  ', ' \\\r\n']) + word for word in words[1:])


def some_card(rnd, n):
    return card_of(n, rnd.randrange(32), rnd.choice([0, 1, 2, 3, 4095]), [some_line(rnd) for _ in range(n)])


def some_line(rnd):
    """Of a card: any numbers that fit their bits. Reading and writing do not judge lots."""
    most = rnd.choice([1, 3, 256])
    lots = [(rnd.randrange(most), rnd.choice(NUMBERS + [0] * 9) % 131072) for _ in range(rnd.randint(0, 4))]
    return [rnd.choice(NUMBERS) % 256, lots, rnd.randrange(8)]


def loose_line(rnd):
    what = rnd.randrange(11)
    n = rnd.choice([1, 2, 3, 4, 5, 6, 7, 8, 8, 0, 9, 256])
    if what >= 9:  # one field too large for its bits, or not 0 past the count
        k = rnd.randint(1, 8)
        first, lines = [rnd.randrange(32), rnd.randrange(4096)], [some_line(rnd) for _ in range(k)]
        line = rnd.choice(lines)
        at = rnd.randrange(5)

        def large(most):
            return rnd.choice([most + 1, most + 1, 2 * most + 1, 65536, 4294967295])
        if at == 0:
            first[0] = large(31)
        elif at == 1:
            first[1] = large(4095)
        elif at == 2:
            line[0] = large(255)
        elif at == 3:
            line[2] = large(7)
        else:
            lots = list(model.four(line[1]))
            place = rnd.randrange(4)
            lots[place] = (large(255), lots[place][1]) if rnd.random() < .5 else (lots[place][0], large(131071))
            line[1] = lots
        return 'write %d %d %d' % (rnd.choice([k, k, k, rnd.randint(1, k)]), *first) + ''.join(group_text(rnd, *l) for l in lines)
    if what == 0:
        return 'read %d %s' % (n, some_card(rnd, n if 1 <= n <= 8 else 1).hex())
    if what == 1:
        card = bytearray(some_card(rnd, rnd.randint(1, 8)))
        card[-1] |= rnd.choice([0, 1, 2, 4, 8, 64])
        return 'read %d %s' % (n, bytes(card).hex().upper())
    if what == 2:
        k = rnd.randint(0, 8)
        return 'write %d %d %d' % (n, rnd.choice(NUMBERS), rnd.choice(NUMBERS)) + ''.join(
            '  %d %d %d %d' % tuple(rnd.choice(NUMBERS + [0] * 20) for _ in range(4)) for _ in range(k))
    if what == 3:
        k = rnd.randint(1, 8)
        line = 'write %d %d %d' % (k, rnd.randrange(32), rnd.randrange(4096)) + ''.join(group_text(rnd, *some_line(rnd)) for _ in range(k))
        if rnd.random() < .3:
            words = line.split(' ')
            words[rnd.randrange(4, len(words))] = rnd.choice(NO_LOTS)
            line = ' '.join(words)
        return line
    if what == 4:
        return 'file ' + bytes(rnd.randrange(256) for _ in range(rnd.choice([0, 1, 7, 15, 16, 17, 30, 44, 58, 114, 115, 500, 1021]))).hex()
    if what == 5:
        return rnd.choice(['', '   ', '# remark', '  # remark', 'help', '?', 'help bid', '? open', 'help units', 'help nothing',
                           'help bid 1', '?? ', 'nothing', 'missing', 'filed', 'names', 'report all', 'name bidder 0 A', 'open', 'bid',
                           'file', 'read', 'write', 'count 0', 'cutback', 'suggest', 'suggest 1', 'undo', 'undo 1', 'bail', 'bail off',
                           'bail on 1', 'quit 1', 'exit now', '# remark \\\ncount', 'count\rcount', 'show\\ ', '\\ '])
    if what == 6:
        line = 'suggest %d %d' % (rnd.choice(NUMBERS + [51199, 51200, 51201, rnd.randrange(51201), rnd.randrange(51201)]),
                                  rnd.choice(NUMBERS + [100, 125, 133, 150, rnd.randint(1, 400), rnd.randint(1, 400)]))
        return line if rnd.random() < .9 else spoiled_text(rnd, line)
    if what == 7:
        return 'cutback' + ''.join(' %d' % rnd.choice(NUMBERS) for _ in range(rnd.choice([1, 2, 4, 6, 14, 15, 16, 17, 18])))
    return 'x' * rnd.choice([1, 2047, 2048, 2049, 2050, 4097, 5000]) if rnd.random() < .3 else 'read 2 ' + ' ' * rnd.choice(
        [1980, 1981, 1982, 1983]) + card_of(2, 1, 2, [[1, [], 0], [2, [], 1]]).hex()


def session(rnd, desk, lines, answers, states):
    """One hire of the box: appends its commands with their answers, and some states on the way; `desk` is the model, which plays along."""
    def say(line):
        if rnd.random() < .02:
            line = folded(rnd, line)
        lines.append(line)
        if rnd.random() < .03:
            states.append(desk.state)
        before = desk.state
        answers.append(desk.answers(line.encode()))
        if desk.state != before and any(desk.state):
            assert desk.stands() and model.store(model.load(desk.state)) == desk.state, line
        return answers[-1]
    say('return')
    if rnd.random() < .3:
        say(rnd.choice(['missing', 'filed', 'filed 0', 'report all', 'names', 'name bidder 0 A', 'count', 'calculate 0', 'bid 0 1 0 0 0',
                        'result']))
    for _ in range(rnd.choice([0, 1, 2, 3])):
        say(spoiled_opening(rnd))
        if any(desk.state):
            say('return')
    while say(opening(rnd))[0] != 'ok':
        pass
    named = rnd.random() < .4
    for _ in range(rnd.choice([1, 2, 5, 9]) if named else 0):
        say(name_line(rnd, model.load(desk.state)))
    for _ in range(rnd.choice([2, 4, 8, 15, 25])):
        a = model.load(desk.state)
        if a.phase != model.OPEN:
            break
        if a.round == 2 and rnd.random() < .6 or rnd.random() < .01:
            for _ in range(rnd.choice([1, 1, 1, 2, 3])):
                say(cutback(rnd, a))
                a = model.load(desk.state)
                if rnd.random() < .5:
                    say('show')
                if rnd.random() < .3:
                    say('report %d' % rnd.randrange(a.bidders))
            if a.phase != model.OPEN:
                break
        who = list(range(a.bidders))
        rnd.shuffle(who)
        absent = rnd.choice([0, 0, 0, 0, 0, 0, .05, .3])
        mood = mood_of(rnd, a)
        for i in who:
            if rnd.random() < absent:
                continue
            fields = good_bid(rnd, a, i, mood)
            if rnd.random() < .1:
                say(bid_line(rnd, i, spoiled_fields(rnd, a, fields)))
            if rnd.random() < (.6 if any(l[2] > 1 for l in fields) else .5 if any(l[1] for l in fields) else .2):
                say(bid_line(rnd, i, against_a_rule(rnd, a, i, fields)))
            if rnd.random() < .04:
                say(without_lots(rnd, i, fields))
            if rnd.random() < .04:
                say(large_fields(rnd, a, i, fields))
            if rnd.random() < .06:
                try:
                    say(spoiled_card(rnd, a, i, fields))
                except model.Refused:
                    pass
            if rnd.random() < .03:
                say(spoiled_text(rnd, bid_line(rnd, i, fields)))
            if rnd.random() < .2:
                try:
                    card = card_of(a.products, i, a.round + (rnd.random() < .05), fields)
                    line = 'file ' + card.hex()
                    say(line if rnd.random() < .9 else spoiled_text(rnd, line))
                except model.Refused:
                    pass
            else:
                say(bid_line(rnd, i, fields))
            if rnd.random() < .03:
                say(rnd.choice(['count', 'show', 'result', 'report %d' % i, 'report 255']))
            if rnd.random() < .06:
                say(new_line(rnd, a))
            if rnd.random() < .02:
                say(loose_line(rnd))
            if rnd.random() < .01:
                say(cutback(rnd, a))
        if rnd.random() < .3:
            say('show')
        draw = list(range(a.bidders))
        rnd.shuffle(draw)
        line = 'calculate ' + ' '.join(map(str, draw))
        if rnd.random() < .05:
            say(spoiled_text(rnd, calculation(rnd, a, line)))
        if rnd.random() < .15:
            say(calculation(rnd, a, wrong_draw(rnd, a.bidders)))
        if rnd.random() < .3:
            say(new_line(rnd, a))
        if not say(calculation(rnd, a, line))[0].startswith('ok'):
            say(line)
        for i in rnd.sample(range(a.bidders), min(a.bidders, 3)):
            say('report %d' % i)
        say('show')
        if rnd.random() < .2:
            say(rnd.choice(['report all', 'names', name_line(rnd, a), 'missing', 'filed']))
    say('result')
    if rnd.random() < .3:
        say(rnd.choice(['missing', 'filed', 'filed 0', 'report all', 'names', name_line(rnd, a), 'bid 0 1 0 0 0', 'calculate 0 1',
                        opening(rnd)]))
    if rnd.random() < .1:
        say(cutback(rnd, a))
    for _ in range(rnd.randint(0, 3)):
        say(loose_line(rnd))
    say(spoiled_text(rnd, rnd.choice(['count', 'result', 'show', 'return', 'report 0', 'help', opening(rnd), opening(rnd), opening(rnd)])))


# ---- What was met

REMARKS = [(number, re.compile(pattern)) for number, pattern in [
    (1, 'a box has'), (2, 'only return'), (3, 'the box is issued'), (3, 'the auction is closed'), (3, 'the auction is stopped'),
    (3, 'no auction is open'), (4, 'bytes, and a card of'), (5, 'its last 1 bits'), (5, 'its last [2-7] bits'), (6, 'and the bidders are'),
    (7, 'the card is of round'), (8, 'against'), (9, 'or more are allowed'), (10, 'bid in all'), (11, 'the reduction is'),
    (11, ' (2[5-9][0-9]|[3-9][0-9][0-9]|1[0-9][0-9][0-9]) withdrawn where'), (11, 'withdrawn in all'), (12, 'the price before'),
    (12, 'where nothing is withdrawn'), (12, 'used lots come first'), (12, 'where lot [1-3] has'), (12, 'nothing is allowed'),
    (13, 'where nothing is switched'),
    (13, 'where nothing is increased'), (13, 'is given 0 times'), (13, 'is given [2-8] times'), (14, 'is unknown'), (14, 'stands'),
    (14, 'is missing'), (14, 'is unknown, .* stands .* is missing'), (15, 'target'), (15, ', cap'), (15, 'starting price'),
    (15, 'statewide cap'), (15, 'eligibility'), (15, 'row 0, percentage'), (15, 'row [1-7], percentage'), (15, 'decrement'),
    (15, 'nothing is allowed'), (15, '; [0-9]+ is allowed'), (16, 'the box is issued'), (16, 'the auction is open'),
    (16, 'the auction is stopped'), (17, 'an auction is open'), (17, 'an auction is closed'), (17, 'an auction is stopped'), (17, 'byte'),
    (18, 'round 1'), (19, ', 0 basis points'), (19, ', 1001 basis points'), (19, ', 65535 basis points'), (20, 'belongs to round 2'),
    (20, 'has filed'), (20, 'target'), (20, ', cap'), (20, 'tranches in all'),
    (23, 'is unknown'), (23, 'stands'), (23, 'is missing'), (23, r'\(.*\)'),
    (29, 'products'), (30, ': bidder'), (30, ': round'), (30, 'tranches'), (30, 'lot 1, withdrawn .* 0 to'), (30, 'lot [2-4], withdrawn'),
    (30, 'lot 1, exit'), (30, 'lot [2-4], exit'), (30, 'priority'),
    (30, '; 0 is allowed'), (31, 'the ratio is 0'), (31, 'bid; 0 to 51200'), (8, r'\(.*\)'), (14, r'\(.*\)'), (19, r'\(.*\)'),
    (20, r'\(.*\)'), (30, r'product [0-9]+ \('),
]]

SAID = [re.compile(pattern) for pattern in [
    'cents per kWh', 'per MW-day', ': [1-9][0-9]* bid, as before', ': 0 bid$', 'up from', 'up from .* priority', 'withdrawn at .* = ',
    'down from [0-9]+, [0-9]+ switched', 'withdrawn at .*, [0-9]+ switched', 'lapses', 'default bids: none', 'default bids: [0-9]',
    'excess 0', 'excess [1-9]', 'short', 'price .* next', ', price [0-9]+ = ', 'retained at [0-9]+ =', 'denied, held at',
    'of the increase cancelled', 'deemed bid', 'denied outbid, free again', 'retained outbid, gone', 'is open$',
    '^  the auction is closed', '^  the auction is stopped', 'above the cap, free again', 'the box is issued', 'still to file',
    'every bidder has filed', '^    card', '; retained at', r'default bids: .*\(', r'still to file: .*\(',
    r'^  bidder [0-9]+ \(.*\) on product [0-9]+ \(.*\): ', '^ok not filed', '^ok [0-9]+ of [0-9]+', 'error name is for',
    'error a name is missing', 'error a name has at most', 'error a name has no brackets', 'has this name', 'error bidders are',
    'error products are [0-9]', 'error names belong', 'next .* overridden$', 'held [0-9]+ overridden$', 'retained .* overridden$',
    r'\) .* overridden$', 'does nothing: it is not above target', 'does nothing: there is no such product', 'does nothing: no price falls',
    'error an override is', 'error products are numbered', 'error a product has one override', 'error an order has',
    'retained [0-9]+@[0-9]+$', 'retained [0-9]+@[0-9]+,[0-9]+@[0-9]+$', 'retained( [0-9]+@|,[0-9]+@){1}[^,]*(,[^,]*){3}$',
    'card.* [0-9]+@[0-9]+(,[0-9]+@[0-9]+){3} ', 'withdrawn at [0-9]+(, [0-9]+ at [0-9]+){3}( =|$|, priority)',
    ': [0-9]+ of [0-9]+ retained at', 'retained at .* of [0-9]+ at', ' of [0-9]+ retained outbid, gone, at', 'gone, at [0-9]+, ',
    '; retained at [^ ]*, ',
    'error a product has tranches, lots', 'error lots are', 'error a lot is missing', 'error a lot has a count', 'error a lot has one @',
    'error a product has at most four lots', 'error a bid in this auction has', 'it takes the place', 'stands already',
    'no price falls: .* no denied switch stands', 'no price falls: .* 1 denied switch stands', 'no price falls: .* denied switches stand',
]]


class Met:
    """Which remarks and lines were met, and how often."""
    def __init__(self):
        self.refusals, self.lines = collections.Counter(), collections.Counter()

    def add(self, said):
        for line in said:
            found = re.match('refused ([0-9]+) ', line)
            if found:
                refused = int(found.group(1))
                self.refusals.update(k for k, (number, pattern) in enumerate(REMARKS) if number == refused and pattern.search(line))
            else:
                self.lines.update(k for k, pattern in enumerate(SAID) if pattern.search(line))

    def tell(self):
        remarks = [('%d %s' % (number, pattern.pattern), self.refusals[k]) for k, (number, pattern) in enumerate(REMARKS)]
        lines = [(pattern.pattern, self.lines[k]) for k, pattern in enumerate(SAID)]
        for what, met in (('remarks', remarks), ('lines', lines)):
            print('    %s: %s' % (what, '; '.join('%s: %d' % pair for pair in met if pair[1])))
            print('    %s never met: %s' % (what, '; '.join(name for name, many in met if not many) or 'none'))


# ---- The desk beside the model

def run_desk(text, *args):
    """What the desk writes, what it says beside that, and its status."""
    done = subprocess.run([DESK, *args], input=text, stdout=subprocess.PIPE, stderr=subprocess.PIPE)
    return done.stdout, done.stderr.decode(errors='surrogateescape'), done.returncode


def differ(lines, answers, got):
    """The first line of which the answers differ; None where none does. Of help's answer the first line is compared."""
    at = 0
    said = got.decode(errors='surrogateescape').split('\n')
    for line, want in zip(lines, answers):
        first, helps = at, re.match(r'(\s|\\\n)*(help|\?)', line)
        for wanted in want:
            if said[at:at + 1] != [wanted]:
                return line, want, said[first:first + len(want) + 1]
            at += 1
            while helps and wanted == 'ok' and said[at:at + 1] and said[at].startswith('  '):
                at += 1
    return None if said[at:] == [''] else ('after the last line', [], said[at:])


def told(name, wrong):
    """Says a test and what is wrong of it, and gives whether it passed."""
    print(('FAILED ' if wrong else 'ok ') + name)
    for what in wrong:
        print('    ', what)
    return not wrong


def play(sessions, seed, met, alone=False):
    """Sessions by tens, each ten in one run of the desk: the tests' results, states met on the way, and how each command was answered."""
    rnd = random.Random(seed)
    results, states = [], []
    tally = collections.defaultdict(collections.Counter)
    for first in range(0, sessions, 10):
        desk, lines, answers, wrong = model.Desk(), [], [], []
        last = min(first + 10, sessions)
        for _ in range(first, last):
            session(rnd, desk, lines, answers, states)
        if not alone:
            got, beside, status = run_desk('\n'.join(lines).encode() + rnd.choice([b'\n', b'']))
            wrong = [found for found in [differ(lines, answers, got)] if found]
            if beside:
                wrong.append('beside the answers: ' + beside)
            if status != desk.status:
                wrong.append('status %d, not %d' % (status, desk.status))
        results.append(told('second model: sessions %d to %d, %d lines' % (first + 1, last, len(lines)), wrong))
        for line, said in zip(lines, answers):
            met.add(said)
            if said and line.split() and line.split()[0].encode() in model.COMMANDS:
                words = said[0].split()
                tally[line.split()[0]][words[1] if words[0] == 'refused' else words[0]] += 1
    return results, states, tally


def lots_all(a, bidder):
    """All that the bidder has of each product in four lots, at prices of its own."""
    def lots(j, g):
        top = a.q[j] - bidder % 8
        return ','.join('%d@%d' % (count, top - 3 + k) for k, count in enumerate([g - 3 * (g // 4), g // 4, g // 4, g // 4]))
    return 'bid %d' % bidder + ''.join('  0 %s 0' % lots(j, a.record[bidder][j].g) for j in range(8))


def largest(met, alone=False):
    """8 products, 32 bidders, all with names of 24 bytes and the largest numbers: the longest answers."""
    lines, desk, answers = [], model.Desk(), []

    def say(*more):
        for line in more:
            lines.append(line)
            answers.append(desk.answers(line.encode()))

    def named(unit, rows):
        say('open %s 1600 product' % unit + ' 200 200 99999' * 8 + ' bidder' + ' 1600' * 32 + rows)
        say(*('name bidder %d %s%02d' % (i, 'B' * 22, i) for i in range(32)))
        say(*('name product %d %s%d' % (j, 'P' * 23, j) for j in range(8)))
    for unit, first in (('mwday', 200), ('kwh', 8)):  # 7 of each product by each bidder is too much, and by default all withdrawn
        rows = ''.join(' %d 500' % k for k in range(8))
        named(unit, ' row' + rows)
        draw = 'calculate ' + ' '.join(map(str, range(32))) + ' override' + ''.join(' %d 1000' % j for j in range(8))
        for b in (first, first - 1):
            say('missing', *('bid %d' % i + ' %d 0 0 0' % b * 8 for i in range(32)))
            say('filed', 'filed 31', 'names', 'show', 'calculate 1 1 255', draw, 'report 31', 'report all', 'show', 'missing')
            if b == first:
                say('cutback' + ' 200 %d' % b * 8, 'cutback' + ' 200 %d' % (b - 1) * 8)
        # everybody withdraws all in four lots, of which as many are retained as the target asks for
        a = model.load(desk.state)
        say(*(lots_all(a, i) for i in range(32)))
        say('filed', 'filed 31', 'show', draw, 'report all', 'show', draw, 'result', 'show', 'report all', 'return')
    # a line for every bidder and product and every kind of move: of seven products 201 tranches are bid, of each bidder four in lots are
    # withdrawn and the others moved to the last product, and all of these but one are retained or denied; then all are deemed bid or outbid
    draw = 'calculate ' + ' '.join(map(str, range(32)))
    for unit in ('kwh', 'mwday'):
        named(unit, ' row 0 500')
        going = [7] * 9 + [6] * 23
        say(*('bid %d' % i + '  %d - 0' % going[i] * 7 + '  64 - 0' for i in range(32)), draw)
        lots = '  0 1@99996,1@99997,1@99998,1@99999 0'
        say(*('bid %d' % i + lots * 7 + '  %d - 1' % (64 + 7 * (going[i] - 4)) for i in range(32)))
        say('show', 'filed', draw, 'show', 'report all')
        a = model.load(desk.state)
        say(*('bid %d' % i + ''.join('  7 - %d' % (j + 1) for j in range(7)) + '  %d - 0' % (a.record[i][7].g - 49) for i in range(32)))
        say('show', draw, 'show', 'report all', 'return')
    for said in answers:
        met.add(said)
    wrong = []
    if not alone:
        got, beside, status = run_desk('\n'.join(lines).encode() + b'\n')
        wrong = [found for found in [differ(lines, answers, got)] if found]
    size, line = max((sum(len(s) + 1 for s in said), line.split()[0]) for line, said in zip(lines, answers))
    return [told('second model: the longest answers, of up to %d bytes, to %s' % (size, line), wrong)]


LOOK = ['count', 'report 0', 'report 1', 'result', 'show', 'calculate 0', 'calculate 0 1', 'calculate 1 0 2', 'return', 'file 00',
        'calculate 0 1 override 0 1000', 'calculate 1 0 override 0 0', 'calculate 0 1 order 0', 'calculate 1 0 order 1 0',
        'cutback 1 1', 'undo', 'undo', 'missing', 'filed', 'filed 0',
        'report all', 'names', 'name bidder 0 A', 'name product 0 B', 'open kwh 1 product 1 1 1 bidder 1 row 0 100',
        'open kwh 1 product 1 1 1 bidder 1 row 0 100']
NAMED = [b'bidder 0 Alpha\nproduct 0 ACE\n', b'bidder 0 A  B\nbidder 1 Z\xc3\xbcrich\n', b'bidder 1 x\n']


def other_lots(rnd, state):
    """The state with the lots of a record or a card changed, to others that stand or not."""
    a = model.load(state)
    some = [(cell, j) for rows in (a.record, a.slot) for row in rows for j, cell in enumerate(row) if cell.lots != model.NONE]
    if not some:
        return state
    cell, j = rnd.choice(some)
    lots = model.used(cell.lots)
    if rnd.random() < .5:
        lots = some_lots(rnd, a, j, model.total(lots))
    else:
        lots = wrong_lots(rnd, a, j, lots)
    cell.lots = model.four(lots)
    return model.store(a)


def spoiled_state(rnd, state):
    if any(state) and rnd.random() < .5:
        state = other_lots(rnd, state)
    state = bytearray(state)
    at = model.PLACE
    for _ in range(rnd.choice([0, 0, 1, 1, 1, 2])):
        k = rnd.choice([rnd.randrange(at['TARGET']), rnd.randrange(at['TARGET'], at['INITIAL']), rnd.randrange(at['INITIAL'], at['PERCENT']),
                        rnd.randrange(at['PERCENT'], at['RECORDS']), at['MARK'] + at['LANE'] * rnd.randrange(3),
                        at['RECORDS'] + rnd.randrange(20),
                        at['RECORDS'] + 8 * at['RECORD'] * rnd.randrange(6) + rnd.randrange(3 * at['RECORD']),
                        at['BIDS'] + 8 * at['LINE'] * rnd.randrange(6) + rnd.randrange(3 * at['LINE']), rnd.randrange(at['STATE'])])
        state[k] = rnd.choice([0, 1, 2, state[k] ^ 1, (state[k] + 1) % 256, (state[k] - 1) % 256, rnd.randrange(256), 255])
    if rnd.random() < .2:
        state[at['ROUND']:at['ROUND'] + 2] = bytes([0, 2])  # round 2: a later round's state stands there only where nothing is kept
    state = bytes(state)
    if rnd.random() < .1:
        state = state[:rnd.randrange(at['STATE'])] if rnd.random() < .5 else state + bytes(rnd.randint(1, 9))
    return state


def content(path):
    if not os.path.exists(path):
        return b''
    with open(path, 'rb') as file:
        return file.read()


def boxes(many, seed, states, met):
    """Boxes with bytes changed, each in a run of its own: the tests' results."""
    rnd = random.Random(seed + 1)
    results, wrong, stood = [], [], 0
    with tempfile.TemporaryDirectory() as folder:
        ours, theirs = os.path.join(folder, 'model'), os.path.join(folder, 'desk')
        for k in range(many):
            state = spoiled_state(rnd, rnd.choice(states))
            for left in glob.glob(theirs + '.*') + glob.glob(ours + '.*'):  # what an earlier box had beside it
                os.unlink(left)
            for path in (ours, theirs):
                with open(path, 'wb') as file:
                    file.write(state)
            if len(state) == model.LENGTH and any(state) and rnd.random() < .4:
                names = rnd.choice(NAMED)
                if model.load(state).bidders >= 2:
                    for path in (ours, theirs):
                        with open(path + '.names', 'wb') as file:
                            file.write(names)
            lines = ['count'] + rnd.sample(LOOK, 4)
            if len(state) == model.LENGTH and 1 <= model.load(state).bidders <= 32 and rnd.random() < .7:
                draw = list(range(model.load(state).bidders))
                rnd.shuffle(draw)
                lines[2] = 'calculate ' + ' '.join(map(str, draw))
                if 1 <= model.load(state).products <= 8:
                    lines[2] = calculation(rnd, model.load(state), lines[2])
                lines += ['show', 'report 0']
            if len(state) == model.LENGTH and 1 <= model.load(state).products <= 8 and rnd.random() < .6:
                lines[1:1] = [cutback(rnd, model.load(state)), 'show']
            desk = model.Desk(ours)
            start = desk.at_start().replace(ours, theirs) + '\n'
            answers = [desk.answers(line.encode()) for line in lines]
            got, beside, status = run_desk('\n'.join(lines).encode() + b'\n', theirs)
            stood += not answers[0][0].startswith(('refused 2', 'refused 1'))
            for said in answers:
                met.add(said)
            found = differ(lines, answers, got)
            if found:
                wrong.append(('box %d' % (k + 1), lines) + found)
            if beside != start:
                wrong.append(('box %d' % (k + 1), 'at the start', start, beside))
            if status != desk.status:
                wrong.append(('box %d' % (k + 1), lines, 'status %d, not %d' % (status, desk.status)))
            for ending in ('', '.names'):
                if content(ours + ending) != content(theirs + ending):
                    wrong.append(('box %d' % (k + 1), lines, 'the bytes differ', ending, content(theirs + ending)[:60]))
            if (k + 1) % 10 == 0 or k + 1 == many:
                name = 'second model: boxes %d to %d, %d of them standing or issued' % (k // 10 * 10 + 1, k + 1, stood)
                results.append(told(name, wrong))
                wrong, stood = [], 0
    return results


def main():
    alone = sys.argv[1:2] == ['alone']
    given = list(map(int, sys.argv[1 + alone:]))
    if alone:
        given.insert(1, 0)
    sessions, many, seed = (given + [300, 300, 1][len(given):])[:3]
    met = Met()
    results, states, tally = play(sessions, seed, met, alone)
    for command in sorted(tally):
        print('    %s: %s' % (command, ', '.join('%s %d' % pair for pair in sorted(tally[command].items()))))
    results += largest(met, alone)
    if not alone:
        results += boxes(many, seed, states, met)
    met.tell()
    print('%d passed, %d failed' % (results.count(True), results.count(False)))
    return 0 if all(results) else 1


if __name__ == '__main__':
    sys.exit(main())
