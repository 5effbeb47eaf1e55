#!/usr/bin/env python3
"""Document 01, with requests 1 to 3, 10 and 11 of document 02, and the desk's text, written a second time.

    tests/model.py [BOX] < commands > answers

The stored answers of crates/cases, examples/ and tests/box come from here, so that none comes from the program itself. Of help it has the
first line only. Nothing in the gate needs it. The names g, d, r, f, p, q, b, R, I, s and w are document 01's; the bytes are those of
docs/LAYOUT.md. `{bidder 0}`, `{product 0}` and `{0}`, a bidder in a list, stand for these words with the name that was given, if any.
"""
import os
import re
import struct
import subprocess
import sys

# where each number stands in the state's bytes: the constants of crates/layout
PLACE = dict((name, int(at)) for name, at in (line.split('=') for line in subprocess.run(
    [os.path.join(os.path.dirname(os.path.abspath(__file__)), 'layout')], capture_output=True, text=True, check=True).stdout.split()))
LENGTH = PLACE['STATE']
PRODUCTS, BIDDERS, ROWS, LOTS = 8, 32, 8, 4
OPEN, CLOSED, STOPPED = 1, 2, 3
PHASE = {0: 'issued', OPEN: 'open', CLOSED: 'closed', STOPPED: 'stopped'}
UNIT = {0: 'kwh', 1: 'mwday'}

WORDS = {
    1: "state length wrong",
    2: "state neither issued nor standing",
    3: "bids not open",
    4: "card length wrong",
    5: "filling bits not zero",
    6: "no such bidder",
    7: "other round",
    8: "some b + d + r above the product cap",
    9: "a reduction on a product that didn't tick",
    10: "sum of b above sum of g + f",
    11: "withdrawn above R on a product, or total not w",
    12: "withdrawn > 0 and exit not in p < x <= q; or withdrawn = 0 and exit not 0; or lots out of order",
    13: "s > 0 and increased products not numbered 1 to k once each, others 0; or s = 0 and a priority not 0",
    14: "draw order wrong",
    15: "a setting outside the limits",
    16: "auction not closed",
    17: "a state byte isn't zero",
    18: "open in round 1",
    19: "an override outside 1 to 1,000",
    20: "a condition on the cutback not met",
    23: "the product order isn't each product once",
    29: "product count not 1 to 8",
    30: "a field too large for its bits, or not 0 past the count",
    31: "a ratio of 0, or more than 51,200 tranches bid",
}


class Refused(Exception):
    def __init__(self, number, remark, words=None):
        self.text = 'refused %d %s: %s' % (number, words or WORDS[number], remark)
        self.number = number


def allowed(least, most):
    if least > most:
        return 'nothing is allowed'
    if least == most:
        return '%d is allowed' % least
    return '%d to %d is allowed' % (least, most)


def listed(bidders):
    return ', '.join('{%d}' % i for i in bidders)


# A number that does not fit the bits that the console has for it is the largest that does.
def byte(n):
    return min(n, 255)


def pair(n):
    return min(n, 65535)


# ---- Lots: pairs of a count and an exit price, always four; a lot is used where its count is above 0

NONE = ((0, 0),) * LOTS


def four(pairs):
    """These lots, and unused ones behind them."""
    assert len(pairs) <= LOTS, pairs
    return tuple(pairs) + NONE[len(pairs):]


def total(lots):
    return 0 if lots is NONE else sum(count for count, _ in lots)


def used(lots):
    return [lot for lot in lots if lot[0] > 0]


def single(lots):
    """The exit price of each tranche by itself."""
    return [x for count, x in lots for _ in range(count)]


# "Prices strictly rise, used lots come first, unused ones are zero."
def in_order(lots):
    prices = [x for _, x in used(lots)]
    return lots == four(used(lots)) and prices == sorted(set(prices))


def between(lots, p, q):
    """Each exit price above p, at most q."""
    return all(p < x <= q for _, x in used(lots))


def as_text(lots):
    """COUNT@PRICE with commas between, up to the last that is not 0@0; - where there is none."""
    many = max((k + 1 for k, lot in enumerate(lots) if lot != (0, 0)), default=0)
    return ','.join('%d@%d' % lot for lot in lots[:many]) or '-'


# ---- What is held

class Record:
    """Of one bidder on one product: g, d, and what is retained, in lots; r is their sum."""
    def __init__(self, g=0, d=0, lots=NONE):
        self.g, self.d, self.lots = g, d, lots

    @property
    def r(self):
        return total(self.lots)

    def prices(self):
        return [x for _, x in used(self.lots)]

    def change(self, x, by):
        """One more or one less in the lot that has this price; where none has it, in a new one behind the others. It stays in order."""
        lots = used(self.lots) + [(0, x)] * (x not in self.prices())
        self.lots = four(used([(count + by, price) if price == x else (count, price) for count, price in lots]))
        assert in_order(self.lots), self.lots

    def is_zero(self):
        return self.g == self.d == 0 and self.lots == NONE


class Line:
    """Of a bid on one product: tranches b, withdrawn in lots, switching priority."""
    def __init__(self, b=0, lots=NONE, priority=0):
        self.b, self.lots, self.priority = b, lots, priority

    @property
    def withdrawn(self):
        return total(self.lots)

    def is_zero(self):
        return self.b == self.priority == 0 and self.lots == NONE


class Auction:
    def __init__(self):
        self.phase = self.unit = self.products = self.bidders = self.rows = self.round = self.statewide = self.filed = 0
        self.target, self.cap, self.start = [0] * PRODUCTS, [0] * PRODUCTS, [0] * PRODUCTS
        self.p, self.q = [0] * PRODUCTS, [0] * PRODUCTS
        self.mark = [0] * PRODUCTS  # 1 where p was overridden
        self.initial, self.free = [0] * BIDDERS, [0] * BIDDERS
        self.percent, self.decrement = [0] * ROWS, [0] * ROWS
        self.record = [[Record() for _ in range(PRODUCTS)] for _ in range(BIDDERS)]
        self.slot = [[Line() for _ in range(PRODUCTS)] for _ in range(BIDDERS)]

    def has_filed(self, i):
        return self.filed >> i & 1 == 1

    def still_to_file(self):
        return [i for i in range(self.bidders) if not self.has_filed(i)]

    def who_is_missing(self):
        missing = self.still_to_file()
        return 'still to file: ' + listed(missing) if missing else 'every bidder has filed'

    def phase_in_words(self):
        return 'round %d is open' % self.round if self.phase == OPEN else 'the auction is ' + PHASE[self.phase]

    def the_bidders(self):
        return 'the bidders are 0 to %d' % (self.bidders - 1)

    def the_products(self):
        return 'the products are 0 to %d' % (self.products - 1)

    # A price, or several, as people say them.
    def people(self, *prices):
        form, per = (('%d.%03d', ' cents per kWh'), ('$%d.%02d', ' per MW-day'))[self.unit]
        return ', '.join(form % divmod(x, (1000, 100)[self.unit]) for x in prices) + per

    def price(self, x):
        return '%d = %s' % (x, self.people(x))

    def units(self):
        return ('thousandths of a cent per kWh', 'cents per MW-day')[self.unit]

    # "Held is g + d + r over all bidders."
    def held(self, j):
        return sum(a[j].g + a[j].d + a[j].r for a in self.record)

    def kept(self, j):
        return sum(a[j].d + a[j].r for a in self.record)

    # "Standing of a product: held minus target."
    def standing(self, j):
        return self.held(j) - self.target[j]

    # "A product ticked exactly when its standing after the last calculation was above zero."
    def ticked(self, j):
        return self.standing(j) > 0

    # "Total excess supply = the standings above zero, summed, plus all f."
    def excess(self):
        return sum(max(0, self.standing(j)) for j in range(self.products)) + sum(self.free)

    # "a product above target is at price 1, or this was round 4,095"
    def must_stop(self):
        return self.round == 4095 or any(self.standing(j) > 0 and self.p[j] == 1 for j in range(self.products))


# ---- The lent bytes: docs/LAYOUT.md

def load(state):
    a = Auction()
    at = 0

    def take(n):
        nonlocal at
        at += n
        return int.from_bytes(state[at - n:at], 'big')
    a.phase, a.unit, a.products, a.bidders, a.rows = take(1), take(1), take(1), take(1), take(1)
    a.round, a.statewide, a.filed = take(2), take(2), take(4)
    for j in range(PRODUCTS):
        a.target[j], a.cap[j], a.start[j], a.p[j], a.q[j], a.mark[j] = take(1), take(1), take(3), take(3), take(3), take(1)
    for i in range(BIDDERS):
        a.initial[i], a.free[i] = take(2), take(2)
    for k in range(ROWS):
        a.percent[k], a.decrement[k] = take(2), take(2)

    def lots(numbers):
        """Of each the count, a byte, and the price, three bytes, of which the first stands by itself here."""
        if not any(numbers):
            return NONE
        return tuple((numbers[k], numbers[k + 1] << 16 | numbers[k + 2]) for k in range(0, 3 * LOTS, 3))
    middle = at + (2 + 4 * LOTS) * BIDDERS * PRODUCTS
    records = [Record(g, d, lots(rest)) for g, d, *rest in struct.iter_unpack('>BB' + 'BBH' * LOTS, state[at:middle])]
    lines = [Line(b, lots(rest), k) for b, *rest, k in struct.iter_unpack('>B' + 'BBH' * LOTS + 'B', state[middle:LENGTH])]
    for i in range(BIDDERS):
        a.record[i] = records[i * PRODUCTS:(i + 1) * PRODUCTS]
        a.slot[i] = lines[i * PRODUCTS:(i + 1) * PRODUCTS]
    return a


def store(a):
    out = bytearray()

    def put(n, *values):
        for v in values:
            out.extend(v.to_bytes(n, 'big'))
    put(1, a.phase, a.unit, a.products, a.bidders, a.rows)
    put(2, a.round, a.statewide)
    put(4, a.filed)
    for j in range(PRODUCTS):
        put(1, a.target[j], a.cap[j])
        put(3, a.start[j], a.p[j], a.q[j])
        put(1, a.mark[j])
    for i in range(BIDDERS):
        put(2, a.initial[i], a.free[i])
    for k in range(ROWS):
        put(2, a.percent[k], a.decrement[k])

    def put_lots(lots):
        if lots is NONE:
            out.extend(bytes(4 * LOTS))
            return
        for count, x in lots:
            put(1, count)
            put(3, x)
    for row in a.record:
        for c in row:
            put(1, c.g, c.d)
            put_lots(c.lots)
    for row in a.slot:
        for l in row:
            put(1, l.b)
            put_lots(l.lots)
            put(1, l.priority)
    return bytes(out)


# ---- Settings, and what may stand

def outside(a):
    """The first setting that is outside its limits, and these; None where there is none."""
    def within(what, v, least, most):
        if not least <= v <= most:
            raise Outside('%s %d; %s' % (what, v, allowed(least, most)))

    class Outside(Exception):
        pass
    try:
        before = 200
        for j in range(a.products):
            within('{product %d}, target' % j, a.target[j], 1, min(200, before))
            within('{product %d}, cap' % j, a.cap[j], 1, a.target[j])
            within('{product %d}, starting price' % j, a.start[j], 1, 99999)
            before = a.target[j]
        within('statewide cap', a.statewide, 1, sum(a.target[:a.products]))
        for i in range(a.bidders):
            within('{bidder %d}, eligibility' % i, a.initial[i], 1, a.statewide)
        for k in range(a.rows):
            if k == 0:
                within('row 0, percentage', a.percent[0], 0, 0)
            else:
                within('row %d, percentage' % k, a.percent[k], a.percent[k - 1] + 1, 60000)
            within('row %d, decrement' % k, a.decrement[k], 50, 500)
    except Outside as e:
        return str(e)
    return None


def settings_fit(a):
    n, m, k = a.products, a.bidders, a.rows
    if not (1 <= n <= PRODUCTS and 1 <= m <= BIDDERS and 1 <= k <= ROWS and a.unit in UNIT):
        return False
    past = a.target[n:] + a.cap[n:] + a.start[n:] + a.initial[m:] + a.percent[k:] + a.decrement[k:]
    return outside(a) is None and not any(past)


def spare_is_zero(a):
    n, m = a.products, a.bidders
    for i in range(BIDDERS):
        for j in range(PRODUCTS):
            if (i >= m or j >= n) and not a.record[i][j].is_zero():
                return False
            if (i >= m or j >= n or not a.has_filed(i)) and not a.slot[i][j].is_zero():
                return False
    return a.filed >> m == 0 and not any(a.p[n:] + a.q[n:] + a.mark[n:] + a.free[m:])


def product_stands(a, j):
    p, q = a.p[j], a.q[j]
    if not (1 <= p <= q <= a.start[j]):
        return False
    over = a.phase == OPEN and a.standing(j) > 0
    if (over or a.kept(j) > 0) and not q > p:
        return False
    if a.kept(j) > 0 and a.standing(j) != 0:
        return False
    # "its mark only on products above target in an open round from 2"
    if a.mark[j] not in ((0, 1) if over and a.round >= 2 else (0,)):
        return False
    for i in range(a.bidders):
        c = a.record[i][j]
        # "retained exits above p, at most q"; "ordered as on a card, which standing requires"
        if not (in_order(c.lots) and between(c.lots, p, q)):
            return False
        if c.g + c.d + c.r > a.cap[j]:
            return False
    return True


def as_opened(a):
    nothing = all(c.is_zero() for row in a.record for c in row)
    return nothing and a.free == a.initial and a.p == a.start and a.q == a.start


def stands(a):
    if a.phase not in (OPEN, CLOSED, STOPPED) or not 1 <= a.round <= 4095:
        return False
    if not settings_fit(a) or not spare_is_zero(a):
        return False
    if not all(product_stands(a, j) for j in range(a.products)):
        return False
    for i in range(a.bidders):
        if sum(c.g + c.d + c.r for c in a.record[i]) + a.free[i] > a.initial[i]:
            return False
    if a.phase == OPEN:
        if not (as_opened(a) if a.round == 1 else a.excess() > 0):
            return False
        if a.round == 2 and any(a.kept(j) > 0 for j in range(a.products)):
            return False
        return all(judged(a, i, a.slot[i]) is None for i in range(a.bidders) if a.has_filed(i))
    if a.filed != 0:
        return False
    if a.phase == CLOSED:
        return a.excess() == 0
    return a.excess() > 0 and a.must_stop()


def looked_at(state):
    """The auction in the lent bytes, None where the box is issued; or 1 or 2."""
    has_length(state)
    if not any(state):
        return None
    a = load(state)
    if not stands(a):
        raise Refused(2, 'only return can be done with it')
    return a


def has_length(state):
    if len(state) != LENGTH:
        raise Refused(1, 'a box has %d bytes' % LENGTH)


def with_bids_open(state):
    a = looked_at(state)
    if a is None:
        raise Refused(3, 'the box is issued')
    if a.phase != OPEN:
        raise Refused(3, a.phase_in_words())
    return a


# ---- The bid card

def fields(line):
    """Of one product on a card: what each field is, its number and its bits."""
    yield 'tranches', line.b, 8
    for k, (count, x) in enumerate(line.lots, 1):
        yield 'lot %d, withdrawn' % k, count, 8
        yield 'lot %d, exit' % k, x, 17
    yield 'priority', line.priority, 3


def card_bits(n):
    return 5 + 12 + n * sum(bits for _, _, bits in fields(Line()))


def card_length(n):
    return (card_bits(n) + 7) // 8


def has_products(n):
    if not 1 <= n <= PRODUCTS:
        raise Refused(29, '%d products' % n)


def write_card(n, bidder, round, lines):
    has_products(n)

    def fits(what, v, bits):
        if v >> bits:
            raise Refused(30, '%s %d; %s' % (what, v, allowed(0, (1 << bits) - 1)))
    fits('bidder', bidder, 5)
    fits('round', round, 12)
    for j in range(PRODUCTS):
        for what, v, bits in fields(lines[j]):
            fits('{product %d}, ' % j + what, v, bits if j < n else 0)
    value = bidder << 12 | round
    for j in range(n):
        for _, v, bits in fields(lines[j]):
            value = value << bits | v
    return (value << 8 * card_length(n) - card_bits(n)).to_bytes(card_length(n), 'big')


def read_card(n, card):
    has_products(n)
    if len(card) != card_length(n):
        raise Refused(4, '%d bytes, and a card of %d products has %d' % (len(card), n, card_length(n)))
    bits = ''.join('{:08b}'.format(byte) for byte in card)
    at = 0

    def take(n):
        nonlocal at
        at += n
        return int(bits[at - n:at], 2)
    bidder, round = take(5), take(12)
    lines = [Line() for _ in range(PRODUCTS)]
    for j in range(n):
        b = take(8)
        lots = tuple((take(8), take(17)) for _ in range(LOTS))
        lines[j] = Line(b, lots, take(3))
    if '1' in bits[at:]:
        raise Refused(5, 'the last byte is %02x, and its last %d bits have to be 0' % (card[-1], len(bits) - at))
    return bidder, round, lines


# ---- Rules of a bid

def reduction(c, l):
    return max(0, c.g - l.b)


def increase(c, l):
    return max(0, l.b - c.g)


def judged(a, i, lines):
    """8 to 13 of bidder i's bid, each over all products before the next: the number and what is wrong; None where it is valid."""
    n = a.products
    own, bid = a.record[i][:n], lines[:n]
    p, q, f = a.p, a.q, a.free[i]
    R = [reduction(c, l) for c, l in zip(own, bid)]
    I = [increase(c, l) for c, l in zip(own, bid)]
    s = max(0, sum(I) - f)
    w = sum(R) - s
    for j, (c, l) in enumerate(zip(own, bid)):
        if l.b + c.d + c.r > a.cap[j]:
            return 8, '{product %d}, %d + %d + %d against %d' % (j, l.b, c.d, c.r, a.cap[j])
    for j, (c, l) in enumerate(zip(own, bid)):
        if R[j] > 0 and not a.ticked(j):
            return 9, '{product %d}, %d bid where %d are going; %d or more are allowed' % (j, l.b, c.g, c.g)
    b, g = sum(l.b for l in bid), sum(c.g for c in own)
    if b > g + f:
        return 10, '%d bid in all where %d are going and %d is free; at most %d are allowed' % (b, g, f, g + f)
    for j, l in enumerate(bid):
        if l.withdrawn > R[j]:
            return 11, '{product %d}, %d withdrawn where the reduction is %d; at most %d are allowed' % (j, l.withdrawn, R[j], R[j])
    withdrawn = sum(l.withdrawn for l in bid)
    if withdrawn != w:
        return 11, '%d withdrawn in all where %d are reduced and %d is switched; exactly %d are allowed' % (withdrawn, sum(R), s, w)
    for j, l in enumerate(bid):
        fault = lots_fault(l.lots, p[j], q[j])
        # "Prices strictly rise, used lots come first, unused ones are zero", and each price above p, at most q
        assert (fault is None) == (in_order(l.lots) and between(l.lots, p[j], q[j]))
        if fault:
            return 12, '{product %d}, %s' % (j, fault)
    for j, l in enumerate(bid):
        if l.priority > 0 and (s == 0 or I[j] == 0):
            return 13, '{product %d}, priority %d where nothing is %s; 0 is allowed' % (j, l.priority, 'increased' if s > 0 else 'switched')
    if s > 0:
        given = [l.priority for j, l in enumerate(bid) if I[j] > 0]
        for k in range(1, len(given) + 1):
            if given.count(k) != 1:
                return 13, '%d products are increased, to be numbered 1 to %d once each; %d is given %d times' % (
                    len(given), len(given), k, given.count(k))
    return None


def lots_fault(lots, p, q):
    """12 of one product: what is wrong with the first lot that is against it; None where none is. Lots are said as 1 to 4."""
    for k, (count, x) in enumerate(lots):
        what = 'lot %d, exit %d where ' % (k + 1, x)
        if count == 0:
            if x != 0:
                return what + 'nothing is withdrawn; 0 is allowed'
        elif k > 0 and lots[k - 1][0] == 0:
            return 'lot %d where lot %d is unused; used lots come first' % (k + 1, k)
        elif not p < x <= q:
            least = lots[k - 1][1] if k > 0 else p
            return what + '%d is the price and %d the price before; %s' % (p, q, allowed(least + 1, q))
        elif k > 0 and x <= lots[k - 1][1]:
            return what + 'lot %d has %d; %s' % (k, lots[k - 1][1], allowed(lots[k - 1][1] + 1, q))
    return None


def default_bid(a, i):
    lines = [Line() for _ in range(PRODUCTS)]
    for j in range(a.products):
        g = a.record[i][j].g
        if not a.ticked(j):
            lines[j] = Line(g)
        elif g > 0:
            lines[j] = Line(0, four([(g, a.q[j])]))  # "The default bid is one lot at q"
    return lines


# ---- Calculating

class Steps:
    """What the steps of a calculation did, each counted as it was done, by bidder and product."""
    KINDS = ('retained', 'denied', 'cancelled', 'deemed', 'denied outbid', 'retained outbid')

    def __init__(self):
        self.done = {}

    def did(self, kind, i, j, many=1):
        self.done[i, j, kind] = self.done.get((i, j, kind), 0) + many

    def count(self, *kinds):
        return sum(many for (_, _, kind), many in self.done.items() if kind in kinds)

    def in_order(self):
        """By bidder, then product, then as the kinds stand above."""
        for (i, j, kind), many in sorted(self.done.items(), key=lambda e: (e[0][0], e[0][1], self.KINDS.index(e[0][2]))):
            if many > 0:
                yield i, j, kind, many


def by_rank(products, lacks, keep):
    """While some ticked product is below target, the first in rank keeps one tranche."""
    while short := [j for j in products if lacks(j) > 0]:
        keep(short[0])


def by_order(order):
    """Document 02, request 10: the plain engine goes through the order again and again, keeping as many as are lacking at each visit."""
    def engine(products, lacks, keep):
        assert sorted(order) == list(products)
        kept = True
        while kept:
            kept = False
            for j in order:
                for _ in range(lacks(j)):
                    keep(j)
                    kept = True
    return engine


def calculate(a, draw, overrides={}, engine=by_rank):
    """Changes the auction; answers what its steps did. An override is a decrement in basis points, by the number of its product; the engine
    says which product keeps a tranche next."""
    n, m = a.products, a.bidders
    products = range(n)
    steps = Steps()
    ticked = [a.ticked(j) for j in products]
    before = [a.kept(j) for j in products]
    bids = [a.slot[i] if a.has_filed(i) else default_bid(a, i) for i in range(m)]

    # 1. Take all bids as accepted. Withdrawals not kept: the exit price of each tranche.
    leaving = [[single(bids[i][j].lots) for j in products] for i in range(m)]
    left = [[reduction(a.record[i][j], bids[i][j]) - len(leaving[i][j]) for j in products] for i in range(m)]
    more = [[increase(a.record[i][j], bids[i][j]) for j in products] for i in range(m)]
    for i in range(m):
        for j in products:
            a.record[i][j].g = bids[i][j].b

    # 2. Ticked products below target keep tranches until none is.
    held = [a.held(j) for j in products]

    def lacks(j):
        return max(0, a.target[j] - held[j]) if ticked[j] else 0

    def keep(j):
        # "Keeping takes the lowest price first across all lots"; the first of the lowest, in the draw's order
        lowest = min((x for i in draw for x in leaving[i][j]), default=None)
        if lowest is not None:
            i = [i for i in draw if lowest in leaving[i][j]][0]
            leaving[i][j].remove(lowest)
            a.record[i][j].change(lowest, 1)
            steps.did('retained', i, j)
        else:
            i = [i for i in draw if left[i][j] > 0][0]
            left[i][j] -= 1
            a.record[i][j].d += 1
            into = max((k for k in products if more[i][k] > 0), key=lambda k: bids[i][k].priority)
            more[i][into] -= 1
            a.record[i][into].g -= 1
            held[into] -= 1
            steps.did('denied', i, j)
            steps.did('cancelled', i, into)
        held[j] += 1
    engine(products, lacks, keep)

    # 3. On a product that didn't tick, denied switches of a bidder with an increase left are deemed bid.
    for j in products:
        for i in range(m):
            c = a.record[i][j]
            if not ticked[j] and more[i][j] > 0:
                steps.did('deemed', i, j, c.d)
                c.g, c.d = c.g + c.d, 0

    # 4. On a product that didn't tick, while held exceeds target and a kept tranche remains, one is outbid.
    a.free = [0] * BIDDERS
    for j in products:
        while not ticked[j] and a.standing(j) > 0 and a.kept(j) > 0:
            denied = [i for i in draw if a.record[i][j].d > 0]
            if denied:
                a.record[denied[0]][j].d -= 1
                a.free[denied[0]] += 1
                steps.did('denied outbid', denied[0], j)
            else:
                # "outbidding the highest", ties by earliest draw
                highest = max(x for i in draw for x in a.record[i][j].prices())
                i = [i for i in draw if highest in a.record[i][j].prices()][0]
                a.record[i][j].change(highest, -1)
                steps.did('retained outbid', i, j)

    # "The first equals the kept tranches now on products that had ticked. The second equals the kept tranches that stood before on the
    # other products, less those deemed bid in step 3, less those still kept there."
    assert steps.count('retained', 'denied') == sum(a.kept(j) for j in products if ticked[j])
    assert steps.count('denied outbid', 'retained outbid') == \
        sum(before[j] - a.kept(j) for j in products if not ticked[j]) - steps.count('deemed')

    # 5. Closed, stopped, or the next round.
    a.mark = [0] * PRODUCTS
    if a.excess() == 0:
        a.phase = CLOSED
    elif a.must_stop():
        a.phase = STOPPED
    else:
        for j in products:
            if a.standing(j) > 0:
                a.p[j], a.q[j] = next_price(a, j, overrides.get(j)), a.p[j]
                a.mark[j] = int(j in overrides)
        a.round += 1
    a.filed = 0
    a.slot = [[Line() for _ in range(PRODUCTS)] for _ in range(BIDDERS)]
    return steps


def next_price(a, j, override=None):
    percentage = 100 * a.standing(j) // a.target[j]
    decrement = [a.decrement[k] for k in range(a.rows) if a.percent[k] <= percentage][-1]
    if override is not None:
        decrement = override
    cut = (a.p[j] * decrement + 5000) // 10000
    return a.p[j] - max(1, cut)


OVERRIDE = 1, 1000


def override_fault(overrides):
    """The first that is outside its limits, whether it would do anything or not; None where there is none."""
    least, most = OVERRIDE
    for j in sorted(overrides):
        if not least <= overrides[j] <= most:
            return '{product %d}, %d basis points; %s' % (j, overrides[j], allowed(least, most))
    return None


# ---- Volume cutback after round 1

def uncut(a, target, cap):
    """Why these revised targets and caps, one of each a product, may not be given now; None where they may."""
    if a.round != 2:
        return 'this is round %d, and a cutback belongs to round 2' % a.round
    for i in range(a.bidders):
        if a.has_filed(i):
            return '{bidder %d} has filed' % i
    for j in range(a.products):
        # "none larger than before and none 0, targets still ranked, caps at most targets"
        most = min([a.target[j]] + target[j - 1:j])
        if not 1 <= target[j] <= most:
            return '{product %d}, target %d; %s' % (j, target[j], allowed(1, most))
        most = min(a.cap[j], target[j])
        if not 1 <= cap[j] <= most:
            return '{product %d}, cap %d; %s' % (j, cap[j], allowed(1, most))
    # "The statewide cap stays, so a new volume below it is refused."
    if sum(target) < a.statewide:
        return '%d tranches in all, and the statewide cap is %d' % (sum(target), a.statewide)
    return None


def cut_back(a, target, cap):
    """Changes the auction; answers who was above a cap: bidder, product and tranches."""
    freed = []
    for j in range(a.products):
        a.target[j], a.cap[j] = target[j], cap[j]
    # "A bidder above a reduced cap is set to the cap, and the difference becomes its free eligibility."
    for i in range(a.bidders):
        for j in range(a.products):
            over = max(0, a.record[i][j].g - a.cap[j])
            a.record[i][j].g -= over
            a.free[i] += over
            if over > 0:
                freed.append((i, j, over))
    # "Round 2 prices are worked out afresh from the starting prices and the reduced book"; "Step 5's stop applies again."
    a.p, a.q = list(a.start), list(a.start)
    a.mark = [0] * PRODUCTS  # "overrides and their marks dropped"
    if a.must_stop():
        a.phase = STOPPED
    else:
        for j in range(a.products):
            if a.standing(j) > 0:
                a.p[j] = next_price(a, j)
    return freed


def suggested_volume(bid, ratio):
    if ratio == 0:
        raise Refused(31, 'the ratio is 0')
    if bid > 51200:
        raise Refused(31, '%d bid; %s' % (bid, allowed(0, 51200)))
    return bid * 100 // ratio


# ---- Report and result

def range_of(excess):
    if excess <= 20:
        return 0, 20
    if excess <= 30:
        return 21, 30
    if excess <= 40:
        return 31, 40
    low = 41 + (excess - 41) // 5 * 5
    return low, low + 4


def result_price(a, j):
    prices = []
    for row in a.record:
        c = row[j]
        prices += [a.p[j]] * (c.g > 0) + [a.q[j]] * (c.d > 0) + c.prices()
    return max(prices, default=a.p[j])


# ---- The words of a line

class Wrong(Exception):
    def __init__(self, what, at=None):
        self.text = 'error ' + what + (', column %d' % (at + 1) if at is not None else '')


def is_remark(line):
    return line.lstrip(bytes(range(33))).startswith(b'#')


def lines_of(text):
    """The lines of an input: each ends at a line feed or a carriage return, and one that is no remark goes on after a backslash there."""
    lines, line = [], b''
    for part, end in re.findall(rb'([^\r\n]*)(\r\n|\r|\n|\Z)', text):
        line += part
        if part.endswith(b'\\') and end and not is_remark(line):
            line = line[:-1] + b' ' * (1 + len(end))
        else:
            lines.append(line)
            line = b''
    return lines + [line]


class Reader:
    def __init__(self, line):
        self.line = line
        self.words = [(m.start(), m.group()) for m in re.finditer(rb'[^\x00-\x20]+', line)]
        self.next = 0
        self.length = len(line)

    def at_end(self):
        return self.next == len(self.words)

    def at(self):
        """Where the next word is, or where it should stand."""
        if not self.at_end():
            return self.words[self.next][0]
        return self.length

    def word(self):
        self.next += 1
        return self.words[self.next - 1][1]

    def is_number(self):
        return not self.at_end() and re.fullmatch(rb'[0-9]+', self.words[self.next][1]) is not None

    def instead(self, what):
        """What is wrong with the next word, unless that was meant as a number and is none."""
        if not self.at_end() and not self.is_number() and self.words[self.next][1][:1] in b'0123456789.,-+$':
            what = 'not a number here'
        return Wrong(what, self.at())

    def group(self, key, most, size, what, after=''):
        """A key word and 1 to `most` groups of `size` numbers, up to the first word that is none; the key word may stand before each."""
        out = []
        while len(out) < most * size and not self.at_end() and self.words[self.next][1] == key.encode():
            self.next += 1
            before = len(out)
            while self.is_number() and len(out) < most * size:
                out.append(self.number())
            if len(out) == before or len(out) % size:
                raise self.instead(what + '; a number is missing')
        if not out:
            raise self.instead('the word %s belongs here%s' % (key, after))
        return [out[k:k + size] for k in range(0, len(out), size)]

    def number(self):
        if self.at_end():
            raise Wrong('a number is missing', self.at())
        if not self.is_number():
            raise Wrong('not a number', self.at())
        if int(self.words[self.next][1]) > 4294967295:
            raise Wrong('a number above 4294967295', self.at())
        return int(self.word())

    def any_number(self):
        """Of any number of digits."""
        if not self.is_number():
            raise Wrong('not a number', self.at())
        return int(self.word())

    def numbers_to_end(self, most):
        return self.numbers_before((), most)

    def numbers_before(self, ends, most):
        """Numbers up to one of the words `ends` or the end of the line."""
        out = []
        while not self.at_end() and self.words[self.next][1] not in ends:
            if len(out) == most:
                self.done()
            out.append(self.number())
        return out

    def overrides(self):
        """After a draw: the word `override` and pairs of a product and basis points, if they are there; the points by product."""
        out = {}
        if not self.is_word(b'override'):
            return out
        missing = 'an override is a product and its basis points; a number is missing'
        at = self.at()
        self.word()
        if self.at_end() or self.is_word(b'order'):
            raise Wrong(missing, at)
        while not self.at_end() and not self.is_word(b'order'):
            at = self.at()
            j = self.any_number()
            if j >= PRODUCTS:
                raise Wrong('products are numbered 0 to %d' % (PRODUCTS - 1), at)
            if j in out:
                raise Wrong('a product has one override', at)
            if self.at_end() or self.is_word(b'order'):
                raise Wrong(missing, at)
            out[j] = pair(self.any_number())
        return out

    def order(self):
        """At the end of a calculation: the word `order` and all products, if they are there; None where they are not."""
        if self.at_end():
            return None
        at = self.at()
        self.word()
        if self.at_end():
            raise Wrong('an order has every product once; a number is missing', at)
        return self.numbers_to_end(40)

    def groups_to_end(self, size, what):
        """Up to 8 groups of `size` numbers, one a product."""
        out = self.numbers_to_end(size * PRODUCTS)
        if len(out) % size:
            raise Wrong('a product has %s; a number is missing' % what, self.at())
        return out

    def lines_to_end(self):
        """Up to 8 groups, one a product: tranches, lots and priority, or tranches, withdrawn, exit and priority; and where each begins."""
        out, begins = [], []

        def number():
            if self.at_end():
                raise Wrong('a product has tranches, lots and priority; one is missing', self.at())
            return self.number()
        while not self.at_end():
            if len(out) == PRODUCTS:
                self.done()
            begins.append(self.at())
            b = number()
            if self.at_end() or self.is_number():
                lots = four([(number(), number())])
            else:
                lots = self.lots()
            out.append(Line(pair(b), tuple((pair(count), x) for count, x in lots), byte(number())))
        return out, begins

    def lots(self):
        """The lots that the next word has."""
        at, word = self.at(), self.word()
        if word == b'-':
            return NONE
        out = []
        for lot in word.split(b','):
            if len(out) == LOTS:
                raise Wrong('a product has at most four lots', at)
            if not lot:
                raise Wrong('a lot is missing', at)
            parts = lot.split(b'@')
            if len(parts) == 1:
                raise Wrong('lots are COUNT@PRICE joined by commas, or -', at)
            if len(parts) > 2:
                raise Wrong('a lot has one @', at + len(parts[0]) + 1 + len(parts[1]))
            for part in parts:
                if not part:
                    raise Wrong('a lot has a count and a price; a number is missing', at)
                if not re.fullmatch(rb'[0-9]+', part):
                    raise Wrong('not a number', at)
                if int(part) > 4294967295:
                    raise Wrong('a number above 4294967295', at)
                at += len(part) + 1
            out.append(tuple(map(int, parts)))
        return four(out)

    def as_many_lines(self, begins, most, what):
        """`most` groups, of which each begins there."""
        if len(begins) != most:
            raise Wrong(what, (begins + [self.length])[min(len(begins), most)])

    def as_many(self, numbers, first, most, what):
        """`most` numbers, of which the first is the word `first` of the line."""
        if len(numbers) != most:
            self.next = min(first + most, len(self.words))
            raise Wrong(what, self.at())

    def hex(self):
        if self.at_end():
            raise Wrong('a card in hexadecimal digits is missing', self.at())
        at, word = self.words[self.next]
        strange = re.search(rb'[^0-9a-fA-F]', word)
        if strange:
            raise Wrong('not a hexadecimal digit', at + strange.start())
        if len(word) % 2 == 1:
            raise Wrong('an odd number of hexadecimal digits', at)
        self.next += 1
        return bytes.fromhex(word.decode())

    def is_word(self, word):
        return not self.at_end() and self.words[self.next][1] == word

    def rest(self):
        """What is left of the line, without the spaces around it."""
        at, last = self.words[-1]
        rest = self.line[self.at():at + len(last)]
        self.next = len(self.words)
        return rest

    def done(self):
        if not self.at_end():
            raise Wrong('nothing more belongs here', self.at())


def eight(lines):
    return lines + [Line()] * (PRODUCTS - len(lines))


# ---- Names

NAME = 24


def is_name(name):
    return 0 < len(name) <= NAME and not re.search(rb'[()\x00-\x08\x0a-\x1f\x7f]', name)


class Names:
    """Of bidders and products: by number, as they were given."""
    def __init__(self):
        self.of = {'bidder': {}, 'product': {}}

    def lines(self):
        return [b'%s %d %s' % (kind.encode(), n, name) for kind in ('bidder', 'product') for n, name in sorted(self.of[kind].items())]

    def read(self, text, a):
        """The names of a file, as far as its lines are names of this auction."""
        for line in text.split(b'\n'):
            found = re.fullmatch(rb'(bidder|product) ([0-9]+) (.+)', line)
            if found:
                kind, n, name = found.group(1).decode(), int(found.group(2)), found.group(3)
                if n < in_use(a, kind) and is_name(name) and name.strip() == name and name not in self.of[kind].values():
                    self.of[kind][n] = name

    def put(self, line):
        """A line of an answer, with the names in it."""
        def named(found):
            kind, n = found.group(1), int(found.group(2))
            name = self.of[(kind or 'bidder ').strip()].get(n)
            said = '%s%d' % (kind or '', n)
            return said if name is None else '%s (%s)' % (said, name.decode(errors='surrogateescape'))
        return re.sub(r'\{(bidder |product )?([0-9]+)\}', named, line)


def in_use(a, kind):
    return a.bidders if kind == 'bidder' else a.products


# ---- What is said of a bid, a product and a report

def card_fields(lines):
    return ''.join(' %d %s %d' % (l.b, as_text(l.lots), l.priority) for l in lines)


def lots_in_words(lots, what, of=None):
    """Each used lot at its price; where it is a part of the lot of that price in `of`, of how many."""
    out = []
    for count, x in used(lots):
        whole = sum(n for n, price in of or () if price == x)
        part = ' of %d' % whole if count < whole else ''
        out.append('%d%s%s at %d' % (count, part, '' if out else what, x))
    return ', '.join(out)


def priced_lots(a, lots, what, of=None):
    return '%s = %s' % (lots_in_words(lots, what, of), a.people(*(x for _, x in used(lots))))


def moved_lots(a, lots, what, of):
    """What a round did, with the price in words where it is one: an answer has such a line for every bidder and product."""
    return (priced_lots(a, lots, what, of) if len(used(lots)) == 1 else lots_in_words(lots, what, of))


def bid_in_words(a, i, lines):
    """A valid bid of bidder i against its records as they stand."""
    out = ['  {bidder %d}, round %d' % (i, a.round)]
    more = 0
    for j in range(a.products):
        l, g = lines[j], a.record[i][j].g
        said = '  {product %d}: %d bid' % (j, l.b)
        if l.b > g:
            said += ', up from %d' % g
            more += l.b - g
            if l.priority > 0:
                said += ', priority %d' % l.priority
        elif l.b < g:
            said += ', down from %d' % g
            if l.withdrawn > 0:
                said += ', ' + priced_lots(a, l.lots, ' withdrawn')
            if g - l.b > l.withdrawn:
                said += ', %d switched' % (g - l.b - l.withdrawn)
        elif g > 0:
            said += ', as before'
        out.append(said)
    said = '  in all %d bid' % sum(l.b for l in lines[:a.products])
    # "Free eligibility not used lapses."
    if a.free[i] > more:
        said += '; %d of the free eligibility lapses' % (a.free[i] - more)
    return out + [said]


def products_in_words(a, then):
    """Each product after a calculation or a cutback: `then` are the prices before."""
    out = []
    for j in range(a.products):
        held, target = a.held(j), a.target[j]
        over = 'excess %d' % (held - target) if held >= target else 'short %d' % (target - held)
        price = 'price %d, next %s' % (then[j], a.price(a.p[j])) if a.phase == OPEN else 'price ' + a.price(then[j])
        out.append('  {product %d}: held %d, target %d, %s, %s%s' % (j, held, target, over, price, overridden(a, j)))
    return out


def overridden(a, j):
    return ' overridden' if a.mark[j] else ''


def unused_in_words(a, overrides):
    """After a calculation: the overrides that did nothing."""
    out = []
    for j in sorted(overrides):
        if j >= a.products:
            why = 'there is no such product'
        elif a.phase != OPEN:
            why = 'no price falls'
        elif a.standing(j) <= 0:
            why = 'it is not above target'
        else:
            continue
        out.append('  the override of {product %d} does nothing: %s' % (j, why))
    return out


def end_in_words(a, before_that=()):
    return ['  total excess supply %d' % a.excess(), *before_that, '  ' + a.phase_in_words()]


# Document 02, request 11: "open with no product above target and D denied switches standing, some price falls, or the auction closes or
# stops, within D + 1 further calculations"
def quiet_in_words(a):
    if a.phase != OPEN or max(a.standing(j) for j in range(a.products)) > 0:
        return []
    D = sum(c.d for row in a.record for c in row)
    stand = {0: 'no denied switch stands', 1: '1 denied switch stands'}.get(D, '%d denied switches stand' % D)
    until = 'within %d more calculations' % (D + 1) if D > 0 else 'with the next calculation'
    return ['  no price falls: no product is above target and %s; %s a price falls or the auction ends' % (stand, until)]


def state_in_words(a):
    """After an undo."""
    if a is None:
        return '  the box is issued: every byte is zero'
    return '  ' + a.phase_in_words() + (', ' + a.who_is_missing() if a.phase == OPEN else '')


def report_in_words(a, i):
    after = a.round - 1 if a.phase == OPEN else a.round
    out = ['  to {bidder %d} after round %d: %s; total excess supply %d-%d; free eligibility %d'
           % ((i, after, a.phase_in_words()) + range_of(a.excess()) + (a.free[i],)),
           '  prices in ' + a.units()]
    own = a.record[i][:a.products]
    for j, c in enumerate(own):
        out.append('  {product %d} price %d going %d denied %d retained %s%s' % (j, a.p[j], c.g, c.d, as_text(c.lots), overridden(a, j)))
        out.append('    ' + a.people(a.p[j]) + ('; retained at ' + a.people(*c.prices()) if c.r > 0 else ''))
    g, d, r = sum(c.g for c in own), sum(c.d for c in own), sum(c.r for c in own)
    return out + ['  in all going %d denied %d retained %d, held %d' % (g, d, r, g + d + r)]


def order_fault(order, kind, count, all_of_them):
    """What is wrong with an order of so many bidders or products; None where nothing is."""
    wrong = []
    unknown = [i for i in order if i >= count]
    often = [i for i in range(count) if order.count(i) > 1]
    missing = [i for i in range(count) if i not in order]
    if unknown:
        wrong.append('{%s %d} is unknown' % (kind, unknown[0]))
    if often:
        wrong.append('{%s %d} stands %d times' % (kind, often[0], order.count(often[0])))
    if missing:
        wrong.append('{%s %d} is missing' % (kind, missing[0]))
    return '%s; %s' % (', '.join(wrong), all_of_them) if wrong else None


def draw_fault(a, draw):
    return order_fault(draw, 'bidder', a.bidders, a.the_bidders())


def products_fault(a, order):
    """Of an order of the products, where one is given."""
    return None if order is None else order_fault(order, 'product', a.products, a.the_products())


# ---- The desk

class Desk:
    def __init__(self, path=None):
        self.path = path
        self.state = self.in_file()
        self.before = None  # the state before the last calculation or return, where there is a file
        self.names = Names()
        if path is not None and os.path.isfile(path + '.names') and self.stands():
            with open(path + '.names', 'rb') as file:
                self.names.read(file.read(), load(self.state))
        self.bails = self.ended = False
        self.status = 0

    def stands(self):
        return len(self.state) == LENGTH and any(self.state) and stands(load(self.state))

    def at_start(self):
        """What is said to standard error before the first line, of a box file."""
        said = 'desk: %s: ' % self.path
        if not os.path.lexists(self.path):
            return said + 'no such file: a new box'
        if len(self.state) != LENGTH:
            return said + 'of another length: no call will do; a box has %d bytes' % LENGTH
        if not any(self.state):
            return said + 'issued'
        if not self.stands():
            return said + 'neither issued nor standing: no call but return will do; desk --check BOX says more'
        a = load(self.state)
        if a.phase == OPEN:
            return said + self.names.put('open, round %d, %s' % (a.round, a.who_is_missing()))
        return said + '%s in round %d' % (PHASE[a.phase], a.round)

    def in_file(self):
        if self.path is None or not os.path.lexists(self.path):
            return bytes(LENGTH)
        with open(self.path, 'rb') as file:
            return file.read()

    def keep(self, state, *before):
        """Keeps a state, and with a file what `undo` is to put back from now on; without one that stays."""
        if self.path is not None:
            if self.in_file() != self.state:
                raise Wrong('the box file was changed by another program; nothing is changed')
            if state != self.state:
                self.write_box(state)
                self.before = before[0] if before else self.before
        self.state = state

    def write_box(self, state):
        new = self.path + '.new'
        try:
            with open(new, 'wb') as file:
                file.write(state)
            os.rename(new, self.path)
        except OSError as e:
            if os.path.isfile(new):
                os.unlink(new)
            raise Wrong('the box was not written: %s; nothing is changed' % e.strerror)

    def keep_names(self):
        if self.path is None:
            return
        if self.names.lines():
            with open(self.path + '.names', 'wb') as file:
                file.write(b''.join(line + b'\n' for line in self.names.lines()))
        elif os.path.exists(self.path + '.names'):
            os.unlink(self.path + '.names')

    def answers(self, text):
        """The lines of the answers to all lines of a text."""
        out = []
        for line in lines_of(text):
            if self.ended:
                break
            said = self.answer(line)
            if said and not said[0].startswith('ok'):
                self.status = 1
                self.ended = self.bails
            out += said
        return out

    def answer(self, line):
        """The lines of the answer."""
        r = Reader(line)
        if r.at_end() or is_remark(line):
            return []
        if len(line) > 2048:
            return ['error the line is longer than 2048 bytes']
        try:
            strange = re.search(rb'[\x00-\x08\x0a-\x1f\x7f]', line)
            if strange:
                raise Wrong('a control character, byte %d' % line[strange.start()], strange.start())
            at, word = r.at(), r.word()
            command = COMMANDS.get(word)
            if command is None:
                raise Wrong('no such command; help lists them', at)
            return [self.names.put(said) for said in command(self, r)]
        except (Refused, Wrong) as e:
            return [self.names.put(e.text)]

    def open(self, r):
        a = Auction()
        a.phase, a.round = OPEN, 1
        unit = r.at()
        if r.at_end() or (word := r.word()) not in (b'kwh', b'mwday'):
            raise Wrong('the unit is kwh or mwday', unit)
        a.unit = (b'kwh', b'mwday').index(word)
        a.statewide = pair(r.number())
        products = r.group('product', PRODUCTS, 3, 'a product has a target, a cap and a starting price')
        bidders = r.group('bidder', BIDDERS, 1, 'a bidder has an initial eligibility', ', after 1 to 8 products')
        rows = r.group('row', ROWS, 2, 'a row has a percentage and a decrement', ', after 1 to 32 bidders')
        r.done()
        has_length(self.state)
        if any(self.state):
            raise Refused(17, self.not_zero())
        a.products, a.bidders, a.rows = len(products), len(bidders), len(rows)
        for j, (target, cap, start) in enumerate(products):
            a.target[j], a.cap[j] = pair(target), pair(cap)
            a.start[j] = a.p[j] = a.q[j] = start
        for i, (initial,) in enumerate(bidders):
            a.initial[i] = a.free[i] = pair(initial)
        for k, (percent, decrement) in enumerate(rows):
            a.percent[k], a.decrement[k] = pair(percent), pair(decrement)
        remark = outside(a)
        if remark:
            raise Refused(15, remark)
        self.keep(store(a), None)
        self.names = Names()
        self.keep_names()
        out = ['ok', '  round 1 is open; prices in %s; statewide cap %d' % (a.units(), a.statewide)]
        for j in range(a.products):
            out.append('  {product %d}: target %d, cap %d, starting price %s' % (j, a.target[j], a.cap[j], a.price(a.start[j])))
        for i in range(a.bidders):
            out.append('  {bidder %d}: eligibility %d' % (i, a.initial[i]))
        for k in range(a.rows):
            out.append('  row %d: from %d percent above target the price falls by %d.%02d percent'
                       % ((k, a.percent[k]) + divmod(a.decrement[k], 100)))
        return out

    def not_zero(self):
        """Of a state that is not issued."""
        if not self.stands():
            at = [k for k in range(LENGTH) if self.state[k]][0]
            return 'byte %d is %d' % (at, self.state[at])
        a = load(self.state)
        return 'an auction is ' + ('open, in round %d' % a.round if a.phase == OPEN else PHASE[a.phase])

    def file_card(self, card):
        """The lines that say it."""
        a = with_bids_open(self.state)
        bidder, round, lines = read_card(a.products, card)
        if bidder >= a.bidders:
            raise Refused(6, 'bidder %d, and %s' % (bidder, a.the_bidders()))
        if round != a.round:
            raise Refused(7, 'the card is of round %d, and this is round %d' % (round, a.round))
        fault = judged(a, bidder, lines)
        if fault:
            raise Refused(*fault)
        again = []
        if a.has_filed(bidder):
            again = ['  it takes the place of the card that was filed before']
            if [list(fields(line)) for line in a.slot[bidder]] == [list(fields(line)) for line in lines]:
                again = ['  it is the card that stands already: nothing is changed']
        a.slot[bidder] = lines
        a.filed |= 1 << bidder
        self.keep(store(a))
        return bid_in_words(a, bidder, lines) + again

    def file(self, r):
        card = r.hex()
        r.done()
        return ['ok'] + self.file_card(card)

    def bid(self, r):
        bidder = byte(r.number())
        lines, begins = r.lines_to_end()
        a = with_bids_open(self.state)
        r.as_many_lines(begins, a.products, 'a bid in this auction has tranches, lots and priority for each of %d products' % a.products)
        card = write_card(a.products, bidder, a.round, eight(lines))
        return ['ok ' + card.hex()] + self.file_card(card)

    def count(self, r):
        r.done()
        a = with_bids_open(self.state)
        return ['ok %d' % len(a.still_to_file())]

    def missing(self, r):
        r.done()
        a = with_bids_open(self.state)
        return ['ok %d' % len(a.still_to_file()), '  ' + a.who_is_missing()]

    def show_filed(self, r):
        if r.at_end():
            a = with_bids_open(self.state)
            filed = [i for i in range(a.bidders) if a.has_filed(i)]
            return ['ok %d of %d' % (len(filed), a.bidders)] + [
                '  {bidder %d}%s' % (i, card_fields(a.slot[i][:a.products])) for i in filed]
        i = byte(r.number())
        r.done()
        a = with_bids_open(self.state)
        if i >= a.bidders:
            raise Refused(6, 'bidder %d, and %s' % (i, a.the_bidders()))
        if not a.has_filed(i):
            return ['ok not filed']
        return ['ok %d %d%s' % (i, a.round, card_fields(a.slot[i][:a.products]))] + bid_in_words(a, i, a.slot[i])

    def calculate(self, r):
        draw = [byte(i) for i in r.numbers_before((b'override', b'order'), 40)]
        overrides = r.overrides()
        order = r.order()
        if order is not None:
            order = [byte(j) for j in order]
        a = with_bids_open(self.state)
        for number, fault in (14, draw_fault(a, draw)), (19, override_fault(overrides)), (23, products_fault(a, order)):
            if fault:
                raise Refused(number, fault)
        then, missing, round = list(a.p), a.still_to_file(), a.round
        bids = [a.slot[i] if a.has_filed(i) else default_bid(a, i) for i in range(a.bidders)]
        stood = [[c.lots for c in row] for row in a.record]
        steps = calculate(a, draw, overrides, by_rank if order is None else by_order(order))
        self.keep(store(a), self.state)
        kept, outbid = steps.count('retained', 'denied'), steps.count('denied outbid', 'retained outbid')
        out = ['ok kept %d outbid %d' % (kept, outbid), '  round %d calculated; default bids: %s' % (round, listed(missing) or 'none')]
        out += products_in_words(a, then) + unused_in_words(a, overrides)
        for i, j, kind, many in steps.in_order():
            now = a.record[i][j].lots
            if kind == 'retained':  # nothing was before, since the product had ticked
                assert many == total(now)
                said = moved_lots(a, now, ' retained', bids[i][j].lots)
            elif kind == 'retained outbid':
                left = {x: count for count, x in used(now)}
                gone = [(count - left.get(x, 0), x) for count, x in used(stood[i][j])]
                assert many == total(gone)
                said = moved_lots(a, gone, ' retained outbid, gone,', stood[i][j])
            else:
                said = '%d %s' % (many, {
                    # "d denied switches at the price q before its latest fall"
                    'denied': 'denied, held at ' + a.price(a.q[j]),
                    'cancelled': 'of the increase cancelled',
                    'deemed': 'deemed bid at ' + a.price(then[j]),
                    'denied outbid': 'denied outbid, free again',
                }[kind])
            out.append('  {bidder %d} on {product %d}: %s' % (i, j, said))
        return out + end_in_words(a, quiet_in_words(a))

    def cutback(self, r):
        first = r.next
        numbers = r.groups_to_end(2, 'a revised target and a revised cap')
        a = with_bids_open(self.state)
        r.as_many(numbers, first, 2 * a.products, 'a cutback in this auction has two numbers for each of %d products' % a.products)
        target, cap = list(map(pair, numbers[0::2])), list(map(pair, numbers[1::2]))
        remark = uncut(a, target, cap)
        if remark:
            raise Refused(20, remark)
        freed = cut_back(a, target, cap)
        self.keep(store(a))
        out = ['  {bidder %d} on {product %d}: %d above the cap, free again' % each for each in freed]
        return ['ok'] + out + products_in_words(a, a.start) + end_in_words(a)

    def suggest(self, r):
        bid, ratio = r.number(), r.number()
        r.done()
        return ['ok %d' % suggested_volume(bid, ratio)]

    def report(self, r):
        every = r.is_word(b'all')
        i = 0 if every else byte(r.number())
        if every:
            r.word()
        r.done()
        a = looked_at(self.state)
        if a is None:
            raise Refused(3, 'no auction is open', 'issued')
        if i >= a.bidders:
            raise Refused(6, 'bidder %d, and %s' % (i, a.the_bidders()))
        if a.phase == OPEN and a.round == 1:
            raise Refused(18, 'round 1 is not calculated yet')
        if every:
            return ['ok %d' % a.bidders] + [said for i in range(a.bidders) for said in report_in_words(a, i)]
        return ['ok %s excess %d-%d free %d' % ((PHASE[a.phase],) + range_of(a.excess()) + (a.free[i],))] + report_in_words(a, i)

    def result(self, r):
        r.done()
        a = looked_at(self.state)
        if a is None:
            raise Refused(16, 'the box is issued')
        if a.phase != CLOSED:
            raise Refused(16, 'the auction is ' + PHASE[a.phase])
        out = ['ok', '  closed in round %d; prices in %s; awards in tranches' % (a.round, a.units())]
        for j in range(a.products):
            price = result_price(a, j)
            out.append('  {product %d} price %d' % (j, price))
            out.append('    %s; %d of %d awarded' % (a.people(price), a.held(j), a.target[j]))
        for i in range(a.bidders):
            awards = [c.g + c.d + c.r for c in a.record[i][:a.products]]
            out.append('  {bidder %d} %s' % (i, ' '.join(map(str, awards))))
            out.append('    in all %d' % sum(awards))
        return out + ['  in all %d of %d awarded' % (sum(map(a.held, range(a.products))), sum(a.target))]

    def show(self, r):
        r.done()
        a = looked_at(self.state)
        if a is None:
            return ['ok issued']
        out = ['ok %s round %d unit %s statewide %d' % (PHASE[a.phase], a.round, UNIT[a.unit], a.statewide)]
        for j in range(a.products):
            out.append('  {product %d} target %d cap %d start %d price %d before %d held %d%s'
                       % (j, a.target[j], a.cap[j], a.start[j], a.p[j], a.q[j], a.held(j), overridden(a, j)))
        for k in range(a.rows):
            out.append('  row %d percent %d decrement %d' % (k, a.percent[k], a.decrement[k]))
        out.append('  records G D LOTS: going, denied, retained; cards T LOTS P: tranches, withdrawn, priority; LOTS: COUNT@EXIT,.. or -')
        for i in range(a.bidders):
            own = ''.join(' %d %d %s' % (c.g, c.d, as_text(c.lots)) for c in a.record[i][:a.products])
            out.append('  {bidder %d} eligibility %d free %d filed %d%s'
                       % (i, a.initial[i], a.free[i], a.has_filed(i), own))
            if a.has_filed(i):
                out.append('    card' + card_fields(a.slot[i][:a.products]))
        return out

    def give_back(self, r):
        r.done()
        has_length(self.state)
        self.keep(bytes(LENGTH), self.state)
        self.names = Names()
        self.keep_names()
        return ['ok', '  the box is issued: every byte is zero']

    def undo(self, r):
        r.done()
        if self.path is None:
            raise Wrong('nothing to undo: a copy is kept beside a box file only')
        has_length(self.state)
        if self.before in (None, self.state):
            raise Wrong('nothing to undo: no calculation or return since the last undo or opening')
        try:
            a = looked_at(self.before)
        except Refused:
            raise Wrong('nothing is undone: the copy beside the box is no state of a box')
        self.keep(self.before, None)
        return ['ok', state_in_words(a)]

    # ---- Names

    def named_auction(self):
        a = looked_at(self.state)
        if a is None:
            raise Wrong('names belong to an auction; open one first')
        return a

    def name(self, r):
        if not (r.is_word(b'bidder') or r.is_word(b'product')):
            raise Wrong('name is for a bidder or a product', r.at())
        kind = r.word().decode()
        number_at = r.at()
        n = r.number()
        at = r.at()
        if r.at_end():
            raise Wrong('a name is missing', at)
        name = r.rest()
        if len(name) > NAME:
            raise Wrong('a name has at most %d bytes' % NAME, at)
        if not is_name(name):
            raise Wrong('a name has no brackets', at)
        a = self.named_auction()
        if n >= in_use(a, kind):
            raise Wrong('%ss are 0 to %d' % (kind, in_use(a, kind) - 1), number_at)
        given = self.names.of[kind]
        if name == b'-':
            given.pop(n, None)
        else:
            for other in sorted(given):
                if other != n and given[other] == name:
                    raise Wrong('%s %d has this name' % (kind, other), at)
            given[n] = name
        self.keep_names()
        return ['ok', '  {%s %d}' % (kind, n)]

    def all_names(self, r):
        r.done()
        self.named_auction()
        given = [(kind, n) for kind in ('bidder', 'product') for n in sorted(self.names.of[kind])]
        return ['ok %d' % len(given)] + ['  {%s %d}' % each for each in given]

    def bail(self, r):
        at = r.at()
        if r.at_end() or (word := r.word()) not in (b'on', b'off'):
            raise Wrong('bail is on or off', at)
        r.done()
        self.bails = word == b'on'
        return ['ok']

    def quit(self, r):
        r.done()
        self.ended = True
        return ['ok']

    def read(self, r):
        n = r.number()
        card = r.hex()
        r.done()
        bidder, round, lines = read_card(n, card)
        out = ['ok %d %d%s' % (bidder, round, card_fields(lines[:n])), '  bidder %d, round %d' % (bidder, round)]
        for j, l in enumerate(lines[:n]):
            withdrawn = ', ' + lots_in_words(l.lots, ' withdrawn') if l.withdrawn > 0 else ''
            priority = ', priority %d' % l.priority if l.priority > 0 else ''
            out.append('  product %d: %d bid%s%s' % (j, l.b, withdrawn, priority))
        return out

    def write(self, r):
        n, bidder, round = r.number(), byte(r.number()), pair(r.number())
        lines, _ = r.lines_to_end()
        return ['ok ' + write_card(n, bidder, round, eight(lines)).hex()]

    def help(self, r):
        """The first line only."""
        if not r.at_end():
            at, word = r.at(), r.word()
            r.done()
            if word not in COMMANDS and word not in TOPICS:
                raise Wrong('no such command; help lists them', at)
        return ['ok']


COMMANDS = {
    b'open': Desk.open, b'file': Desk.file, b'bid': Desk.bid, b'count': Desk.count, b'calculate': Desk.calculate,
    b'suggest': Desk.suggest, b'cutback': Desk.cutback, b'report': Desk.report, b'result': Desk.result, b'show': Desk.show,
    b'return': Desk.give_back, b'undo': Desk.undo, b'read': Desk.read, b'write': Desk.write, b'bail': Desk.bail, b'quit': Desk.quit,
    b'exit': Desk.quit, b'help': Desk.help, b'?': Desk.help, b'missing': Desk.missing, b'filed': Desk.show_filed, b'name': Desk.name,
    b'names': Desk.all_names,
}

# what there is help for beside the commands
TOPICS = (b'round', b'order', b'example', b'lots', b'units', b'letters', b'refusals')


def encoded(said):
    """A name may be of any bytes."""
    return said.encode(errors='surrogateescape')


def main():
    try:
        desk = Desk(sys.argv[1] if len(sys.argv) > 1 else None)
    except OSError as e:
        print('error the box cannot be read: %s' % e.strerror)
        return 2
    for said in desk.answers(sys.stdin.buffer.read()):
        sys.stdout.buffer.write(encoded(said) + b'\n')
    return desk.status


if __name__ == '__main__':
    sys.exit(main())
