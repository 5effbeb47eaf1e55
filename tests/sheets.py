#!/usr/bin/env python3
"""Auctions made by tests/model.py, on box files with journals, and the pages that the desk makes of them.

    tests/sheets.py FOLDER [SEED]

Every figure of a page is compared with the model's own calculation. The last line is `N passed, M failed`. The desk is ./desk, or the
program that DESK names. tests/sheet runs it.
"""
import hashlib
import html.parser
import os
import random
import re
import subprocess
import sys
import xml.etree.ElementTree

sys.dont_write_bytecode = True
sys.path.insert(0, os.path.dirname(os.path.abspath(__file__)))
import against
import model

ROOT = os.path.dirname(os.path.dirname(os.path.abspath(__file__)))
DESK = os.environ.get('DESK', os.path.join(ROOT, 'desk'))
passed = failed = 0


def told(name, wrong):
    global passed, failed
    if wrong:
        failed += 1
        print('FAILED ' + name)
        for what in wrong[:8]:
            print('    ' + str(what)[:300])
    else:
        passed += 1
        print('ok ' + name)


# ---- A calculation told step by step: document 01 once more, so that nothing is guessed from the states before and after it

def count_of(lots):
    return sum(count for count, _ in lots)


def calculated(a, draw):
    """Calculates as the model does, and gives what each step did: (bidder, product, what) with a count, and the bids."""
    n, m = a.products, a.bidders
    ticked = [a.ticked(j) for j in range(n)]
    bids = [a.slot[i] if a.has_filed(i) else model.default_bid(a, i) for i in range(m)]
    done = {}

    def note(i, j, what, count=1):
        done[i, j, what] = done.get((i, j, what), 0) + count
    # by places: the k-th lot of a card is retained in the k-th lot of the record, each lot a count and a price
    leaving = [[[list(lot) for lot in bids[i][j].lots] for j in range(n)] for i in range(m)]
    left = [[max(0, a.record[i][j].g - bids[i][j].b) - count_of(leaving[i][j]) for j in range(n)] for i in range(m)]
    more = [[max(0, bids[i][j].b - a.record[i][j].g) for j in range(n)] for i in range(m)]
    holds = [[[bids[i][j].b, a.record[i][j].d, [list(lot) for lot in a.record[i][j].lots]] for j in range(n)] for i in range(m)]

    def held(j):
        return sum(holds[i][j][0] + holds[i][j][1] + count_of(holds[i][j][2]) for i in range(m))

    def first(lots):
        return next(k for k in range(model.LOTS) if lots[k][0])

    def last(lots):
        return max(k for k in range(model.LOTS) if lots[k][0])
    while True:
        short = [j for j in range(n) if ticked[j] and held(j) < a.target[j]]
        if not short:
            break
        j = short[0]
        out = [i for i in draw if count_of(leaving[i][j])]
        if out:
            i = min(out, key=lambda i: (leaving[i][j][first(leaving[i][j])][1], draw.index(i)))
            lot = leaving[i][j][first(leaving[i][j])]
            into = holds[i][j][2][first(leaving[i][j])]
            lot[0] -= 1
            into[0] += 1
            into[1] = lot[1]
            note(i, j, 'retained')
        else:
            i = next(i for i in draw if left[i][j])
            left[i][j] -= 1
            holds[i][j][1] += 1
            note(i, j, 'denied')
            k = max((k for k in range(n) if more[i][k]), key=lambda k: bids[i][k].priority)
            more[i][k] -= 1
            holds[i][k][0] -= 1
            note(i, k, 'cancelled')
    for j in range(n):
        if ticked[j]:
            continue
        for i in range(m):
            if more[i][j] and holds[i][j][1]:
                note(i, j, 'deemed', holds[i][j][1])
                holds[i][j][0] += holds[i][j][1]
                holds[i][j][1] = 0
        while held(j) > a.target[j]:
            switches = [i for i in draw if holds[i][j][1]]
            kept = [i for i in draw if count_of(holds[i][j][2])]
            if switches:
                holds[switches[0]][j][1] -= 1
                note(switches[0], j, 'freed')
            elif kept:
                i = max(kept, key=lambda i: (holds[i][j][2][last(holds[i][j][2])][1], -draw.index(i)))
                lot = holds[i][j][2][last(holds[i][j][2])]
                lot[:] = [lot[0] - 1, lot[1]] if lot[0] > 1 else [0, 0]
                note(i, j, 'gone')
            else:
                break
    return done, bids, holds


class Round:
    """What a page should say of a round."""
    def __init__(self, a, draw, overrides):
        self.number, self.p, self.mark, self.target = a.round, list(a.p), list(a.mark), list(a.target)
        self.defaults = [i for i in range(a.bidders) if not a.has_filed(i)]
        self.stood = [[c.lots for c in row] for row in a.record]
        self.done, self.bids, self.holds = calculated(a, draw)
        steps = model.calculate(a, draw, overrides)
        self.counts = steps.count('retained', 'denied'), steps.count('denied outbid', 'retained outbid')
        n, m = a.products, a.bidders
        assert [[[c.g, c.d, list(map(list, c.lots))] for c in a.record[i][:n]] for i in range(m)] == self.holds
        self.held = [a.held(j) for j in range(n)]
        self.excess = a.excess()
        self.q = list(a.q)

    def sum(self, j, *what):
        return sum(v for (i, k, w), v in self.done.items() if k == j and w in what)


# ---- A box with its journal, made without the desk

class Made:
    def __init__(self, path):
        self.path, self.lines, self.sum = path, [], '0' * 64
        self.state = self.prior = self.before = bytes(model.LENGTH)
        self.opened = self.first = self.cut = None
        self.rounds = {}

    def line(self, answer, given, state):
        text = ' %s: %s\n' % (answer, given)
        self.sum = hashlib.sha256(self.sum.encode() + text.encode('latin-1') + state).hexdigest()
        self.lines.append(self.sum + text)
        self.prior, self.state = self.state, state

    def auction(self):
        return model.load(self.state)

    def open(self, line):
        desk = model.Desk()
        said = desk.answers(line.encode())
        if said[0] != 'ok':
            return False
        self.line('ok', line, desk.state)
        self.opened = self.auction()
        return True

    def bid(self, i, fields):
        a = self.auction()
        lines = model.eight([model.Line(b, model.four(lots), priority) for b, lots, priority in fields])
        if model.judged(a, i, lines):
            return False
        a.slot[i] = lines
        a.filed |= 1 << i
        if model.store(a) != self.state:
            card = model.write_card(a.products, i, a.round, lines)
            self.line('ok ' + card.hex(), 'bid %d' % i + ''.join(
                '  %d %s %d' % (l.b, model.as_text(l.lots), l.priority) for l in lines[:a.products]), model.store(a))
        return True

    def calculate(self, draw, overrides={}, order=()):
        a = self.auction()
        self.before = self.state
        told = Round(a, draw, overrides)
        given = 'calculate ' + ' '.join(map(str, draw)) + ' override' * bool(overrides) + ''.join(' %d %d' % e for e in overrides.items())
        given += ' order' * bool(order) + ''.join(' %d' % j for j in order)
        self.line('ok kept %d outbid %d' % told.counts, given, model.store(a))
        self.rounds[told.number] = told
        if told.number == 1:
            self.first, self.cut = model.load(self.state), None

    def cutback(self, numbers):
        a = self.auction()
        if model.uncut(a, numbers[0::2], numbers[1::2]) is not None:
            return False
        model.cut_back(a, numbers[0::2], numbers[1::2])
        if model.store(a) != self.state:
            self.line('ok', against.cutback_line(numbers), model.store(a))
            self.cut = model.load(self.state)
            self.rounds.pop(2, None)
        return True

    def undo(self):
        self.line('ok', 'undo', self.before)
        if self.auction().round == 1:
            self.cut = None

    def void(self, rounds, cut):
        """The line before was not finished: what was known before it is known again."""
        self.rounds, self.cut = rounds, cut
        back = self.prior
        self.line('void', 'the call before was not finished', back)
        self.prior = back

    def give_back(self):
        self.before = self.state
        self.line('ok', 'return', bytes(model.LENGTH))

    def last(self):
        return model.load(self.state if any(self.state) else self.prior)

    def write(self):
        with open(self.path + '.journal', 'wb') as file:
            file.write(''.join(self.lines).encode('latin-1'))
        with open(self.path, 'wb') as file:
            file.write(self.state)

    def calculated(self):
        a = self.last()
        return [self.rounds[r] for r in range(1, a.round + (a.phase != model.OPEN)) if r in self.rounds]


def draw_of(rnd, a):
    draw = list(range(a.bidders))
    rnd.shuffle(draw)
    return draw


def overrides_of(rnd, a):
    """In half of the cases some, of any products."""
    products = range(model.PRODUCTS if rnd.random() < .1 else a.products)
    many = min(len(products), rnd.choice([1, 1, 2, 3])) if rnd.random() < .5 else 0
    return {j: rnd.choice([1, 1000, rnd.randint(1, 1000)]) for j in rnd.sample(products, many)}


def order_of(rnd, a):
    """In a third of the cases an order of the products: a page tells nothing of it."""
    return rnd.sample(range(a.products), a.products) if rnd.random() < .33 else ()


def bid_round(rnd, made, absent=.1, still=0):
    """Cards of a round: some bidders send none, and some bid as before."""
    a = made.auction()
    mood = against.mood_of(rnd, a)
    for i in range(a.bidders):
        if rnd.random() < absent:
            continue
        if a.round > 1 and rnd.random() < still:
            made.bid(i, [[c.g, [], 0] for c in a.record[i][:a.products]])
        else:
            made.bid(i, against.good_bid(rnd, a, i, mood))


def random_auction(rnd, path):
    made = Made(path)
    while not made.open(against.opening(rnd)):
        pass
    for _ in range(rnd.choice([0, 1, 2, 4, 8, 15, 25])):
        a = made.auction()
        if a.phase != model.OPEN:
            break
        if a.round == 2 and a.filed == 0 and rnd.random() < .6:
            for _ in range(rnd.choice([1, 1, 2])):
                was = dict(made.rounds), made.cut
                lines = len(made.lines)
                if made.auction().phase == model.OPEN:
                    made.cutback(against.good_cutback(rnd, made.auction()))
                if len(made.lines) > lines and rnd.random() < .2:
                    made.void(*was)
            if made.auction().phase != model.OPEN:
                break
        bid_round(rnd, made, rnd.choice([0, 0, .1, .5]))
        if rnd.random() < .1:
            continue  # a line or two may lie between, and cards be filed again
        was = dict(made.rounds), made.cut, made.first
        made.calculate(draw_of(rnd, a), overrides_of(rnd, a), order_of(rnd, a))
        what = rnd.random()
        if what < .12:
            made.undo()
        elif what < .2:
            made.void(was[0], was[1])
            made.first = was[2]
    if rnd.random() < .3:
        made.give_back()
        if rnd.random() < .4:
            made.undo()
    made.write()
    return made


# ---- A page read

class Balance(html.parser.HTMLParser):
    """Whether every element that is begun is ended, and in order."""
    def __init__(self):
        super().__init__()
        self.open, self.wrong = [], []

    def handle_starttag(self, tag, attrs):
        self.open.append(tag)

    def handle_startendtag(self, tag, attrs):
        pass

    def handle_endtag(self, tag):
        if not self.open or self.open.pop() != tag:
            self.wrong.append('the end of %s at %s' % (tag, self.getpos()))


OUTSIDE = re.compile(rb'https?:|//|\bsrc\s*=|\bhref\b|url\(|@import|<script|<link|<img|<iframe|<object|javascript', re.I)


def text(e):
    return ''.join(e.itertext())


class Page:
    def __init__(self, raw):
        self.raw = raw
        body = raw.split(b'\n', 1)[1]
        self.tree = xml.etree.ElementTree.fromstring(body)

    def all(self, path='.//*', **by):
        by = {'data-' + k if k not in ('id',) else k: str(v) for k, v in by.items()}
        return [e for e in self.tree.iterfind(path) if all(e.get(k) == v for k, v in by.items())]

    def one(self, path='.//*', **by):
        found = self.all(path, **by)
        assert len(found) == 1, (path, by, len(found))
        return found[0]


def cells(row):
    """By what they are, without the word beside a price that was overridden."""
    return {e.get('data-what'): re.sub(r' *overridden$', '', text(e)) for e in row if e.get('data-what')}


def said(unit, amount):
    return '%d.%03d' % divmod(amount, 1000) if unit == 0 else '%d.%02d' % divmod(amount, 100)


def standing(held, target):
    return 'short %d' % (target - held) if held < target else str(held - target)


def compared(made, raw, names={}):
    """What is wrong with a page."""
    wrong = []

    def same(what, want, got):
        if want != got:
            wrong.append('%s: %r is wanted, and %r stands there' % (what, want, got))
    balance = Balance()
    balance.feed(raw.decode())
    balance.close()
    same('elements', ([], []), (balance.open, balance.wrong))
    same('references to outside', None, OUTSIDE.search(raw))
    page = Page(raw)
    a, opened, rounds = made.last(), made.opened, made.calculated()
    n, m, unit = a.products, a.bidders, a.unit

    def named(kind, k):
        return '%d %s' % (k, names[kind, k]) if (kind, k) in names else str(k)
    # the head
    phase = {1: 'open, round %d', 2: 'closed in round %d', 3: 'stopped in round %d'}[a.phase] % a.round
    same('phase', phase + ('; the box is returned' if not any(made.state) else ''), text(page.one('.//table[@class="facts"]//td', what='phase')))
    same('rounds', str(len(rounds)), text(page.one('.//table[@class="facts"]//td', what='rounds')))
    same('unit', ('thousandths of a cent per kWh', 'cents per MW-day')[unit], text(page.one('.//table[@class="facts"]//td', what='unit')))
    same('lines', len(made.lines), int(text(page.one('.//table[@class="facts"]//td', what='lines')).split()[0]))
    same('sum', made.sum[:16], text(page.one('.//table[@class="facts"]//td', what='sum')).split()[0])
    same('whole sum', made.sum, text(page.one('.//span', what='whole')))
    same('box', os.path.basename(made.path), text(page.one('.//span', what='box')))
    # the settings
    part = './/section[@id="settings"]//'
    same('statewide', str(a.statewide), text(page.one(part + 'b', what='statewide')))
    same('products', n, len(page.all(part + 'tr[@data-product]')))
    for j in range(n):
        row = page.one(part + 'tr', product=j)
        same('product %d' % j, {'target': str(opened.target[j]), 'cap': str(opened.cap[j]), 'start': str(opened.start[j]),
                                'said': said(unit, opened.start[j])}, cells(row))
        same('name of product %d' % j, named('product', j), text(row[0]))
    same('eligibility', [str(e) for e in a.initial[:m]], [text(e) for e in page.all(part + 'td[@data-eligibility]')])
    same('rows', [[str(v) for v in a.percent[:a.rows]], ['%d.%02d' % divmod(v, 100) for v in a.decrement[:a.rows]]],
         [[text(e) for e in page.all(part + 'td[@%s]' % what)] for what in ('data-percent', 'data-decrement')])
    # the charts
    part = './/section[@id="charts"]'
    shown = a.round if a.phase == model.OPEN else len(rounds)
    lines = page.all(part + '//svg[@id="prices"]//polyline')
    same('lines of the price chart', n, len(lines))
    prices = [[r.p[j] for r in rounds] + ([a.p[j]] if a.phase == model.OPEN else []) for j in range(n)]
    high = max(prices[j][0] for j in range(n))
    for j, e in enumerate(lines):
        points = [tuple(map(int, p.split(','))) for p in e.get('points').split()]
        same('points of product %d' % j, min(400, shown), len(points))
        same('a line of falling prices', sorted(points), points)
        same('y never falls', sorted(y for _, y in points), [y for _, y in points])
        if shown <= 400:
            flat = [k for k in range(1, shown) if prices[j][k] == prices[j][k - 1]]
            same('y stays where the price does', flat, [k for k in flat if points[k][1] == points[k - 1][1]])
    ends = [int(e.get('y')) for e in page.all(part + '//svg[@id="prices"]/text') if len(e)]
    same('labels', n, len(ends))
    same('labels apart', [], [(u, v) for u, v in zip(sorted(ends), sorted(ends)[1:]) if v - u < 30])
    same('labels', [said(unit, prices[j][-1]) + ' ' + named('product', j) for j in range(n)],
         [text(e) for e in page.all(part + '//svg[@id="prices"]/text') if len(e)])
    charts = page.all(part + '//svg[@data-product]')
    same('charts of what is held', n if rounds else 0, len(charts))
    if 0 < len(rounds) < 15:
        for j, e in enumerate(charts):
            bars = re.findall(r'M\d+,(\d+)V(\d+)h\d+V\d+', e.find('path[@class="b"]').get('d'))
            same('bars of product %d' % j, len(rounds), len(bars))
            counts = [text(t) for t in e.findall('text') if t.get('class') == 'c'][-len(rounds):]
            same('counts of product %d' % j, [str(r.held[j]) for r in rounds], counts)
    # all rounds, where there are many
    many = len(rounds) > 60
    same('brief', [[str(v) for j in range(n) for v in (r.p[j], r.held[j])] for r in rounds] if many else [],
         [[text(c) for c in row if c.tag == 'td'] for row in page.all('.//tr[@data-brief]')])
    # the rounds
    want = [r for k, r in enumerate(rounds) if not many or k in (0, len(rounds) - 1) or r.done]
    same('rounds told', [r.number for r in want], [int(e.get('data-round')) for e in page.all('.//section[@data-round]')])
    for r in want:
        section = page.one('.//section', round=r.number)
        rows = [e for e in section.iter('tr') if e.get('data-round')]
        same('rows of round %d' % r.number, list(range(n)), [int(e.get('data-product')) for e in rows])
        for j, row in enumerate(rows):
            same('round %d, product %d' % (r.number, j), {
                'price': str(r.p[j]), 'said': said(unit, r.p[j]), 'bid': str(sum(b[j].b for b in r.bids)), 'held': str(r.held[j]),
                'target': str(r.target[j]), 'excess': standing(r.held[j], r.target[j]), 'retained': str(r.sum(j, 'retained')),
                'denied': str(r.sum(j, 'denied')), 'cancelled': str(r.sum(j, 'cancelled')), 'deemed': str(r.sum(j, 'deemed')),
                'outbid': str(r.sum(j, 'freed', 'gone'))}, cells(row))
            same('round %d, name of product %d' % (r.number, j), named('product', j), text(row[0]))
            same('round %d, product %d, overridden' % (r.number, j), r.mark[j], text(row).count('overridden'))
        sums = {e.get('data-what'): text(e) for e in section.find('p[@class="sum"]').iter('span') if e.get('data-what')}
        same('round %d' % r.number, {'bid': str(sum(l.b for b in r.bids for l in b)), 'kept': str(r.counts[0]),
                                     'outbid': str(r.counts[1]), 'excess': str(r.excess)}, sums)
        same('round %d, default bids' % r.number, [(str(i), named('bidder', i)) for i in r.defaults],
             [(e.get('data-default'), text(e)) for e in section.iter('span') if e.get('data-default')])
        got = []
        for p in section.findall('p[@data-bidder]'):
            same('round %d, name of a bidder' % r.number, 'bidder ' + named('bidder', int(p.get('data-bidder'))), text(p[0]))
            for e in p.findall('span'):
                price = e.find('i')
                key = int(p.get('data-bidder')), int(e.get('data-product')), e.get('data-what')
                whole = re.match(r'[0-9]+ of ([0-9]+) (?:retained|bid)', text(e))
                got.append(key + (int(text(e.find('b'))), int(whole.group(1)) if whole else 0,
                                  price is not None and (int(price.get('data-price')), text(price))))

        def each(i, j, what, count):
            """Of retained and outbid lots each is told by itself, and of how many it is a part."""
            if what in ('retained', 'gone'):
                now, of = r.holds[i][j][2], r.bids[i][j].lots if what == 'retained' else r.stood[i][j]
                many = [lot[0] if what == 'retained' else whole[0] - lot[0] for lot, whole in zip(now, of)]
                return [(n, whole if n < whole else 0, (x, said(unit, x))) for n, (whole, x) in zip(many, of) if n]
            amount = {'denied': r.q[j], 'deemed': r.p[j]}.get(what)
            return [(count, 0, amount is not None and (amount, said(unit, amount)))]
        same('round %d, bidders' % r.number, sorted(key + told for key, count in r.done.items() for told in each(*key, count)), sorted(got))
    # a cutback
    cuts = page.all('.//section[@data-cutback]')
    cut = made.cut if made.cut is not None and rounds and a.round >= 2 else None
    same('cutbacks', 1 if cut is not None else 0, len(cuts))
    if cut is not None and cuts:
        first = made.first
        same('cutback', [{
            'target-before': str(first.target[j]), 'target': str(cut.target[j]), 'cap-before': str(first.cap[j]), 'cap': str(cut.cap[j]),
            'held': str(cut.held(j)), 'excess': standing(cut.held(j), cut.target[j]), 'price': str(cut.p[j]), 'said': said(unit, cut.p[j])}
            for j in range(n)], [cells(row) for row in cuts[0].iter('tr') if row.get('data-product')])
        same('excess after the cutback', str(cut.excess()), text(cuts[0].find('p[@class="sum"]/span')))
        same('above the caps', [(i, j, first.record[i][j].g - cut.record[i][j].g) for i in range(m) for j in range(n)
                                if first.record[i][j].g > cut.record[i][j].g],
             [(int(p.get('data-bidder')), int(e.get('data-product')), int(text(e.find('b'))))
              for p in cuts[0].findall('p[@data-bidder]') for e in p.findall('span')])
    # the end
    same('end', {1: ['open'], 2: ['awards'], 3: ['stopped']}[a.phase],
         [e.get('id') for e in page.all('.//section') if e.get('id') in ('open', 'awards', 'stopped')])
    if a.phase == model.CLOSED:
        part = './/section[@id="awards"]//'
        final = [model.result_price(a, j) for j in range(n)]
        same('final prices', list(map(str, final)), [text(e) for e in page.all(part + 'td', what='price')])
        same('final prices as said', [said(unit, p) for p in final], [text(e) for e in page.all(part + 'td', what='said')])
        awards = [[a.record[i][j].g + a.record[i][j].d + a.record[i][j].r for j in range(n)] for i in range(m)]
        for i in range(m):
            row = page.one(part + 'tr', bidder=i)
            same('awards of bidder %d' % i, list(map(str, awards[i] + [sum(awards[i])])), [text(e) for e in row if e.tag == 'td'])
            same('name of bidder %d' % i, named('bidder', i), text(row[0]))
        same('awarded', [str(sum(w[j] for w in awards)) for j in range(n)], [text(e) for e in page.all(part + 'td', what='awarded')])
        same('targets', [str(t) for t in a.target[:n]], [text(e) for e in page.all(part + 'td', what='target')])
        same('sums', [str(sum(w)) for w in awards] + [str(sum(map(sum, awards))), str(sum(a.target[:n]))],
             [text(e) for e in page.all(part + 'td', what='sum')])
    if a.phase == model.OPEN:
        same('still to file', [(str(i), named('bidder', i)) for i in range(m) if not a.has_filed(i)],
             [(e.get('data-waiting'), text(e)) for e in page.all('.//span[@data-waiting]')])
    return wrong


def sheet(path, *journal):
    done = subprocess.run([DESK, '--sheet', path, *journal], stdin=subprocess.DEVNULL, stdout=subprocess.PIPE, stderr=subprocess.PIPE)
    return done.returncode, done.stdout, done.stderr.decode(errors='replace')


def page_told(name, made, *journal, **more):
    status, raw, error = sheet(made.path, *journal)
    told(name, ['status %d: %s' % (status, error)] if status or error else compared(made, raw, **more))


# ---- The auctions

def largest(rnd, path, rounds):
    """8 products and 32 bidders, with a volume that lasts so many rounds."""
    made = Made(path)
    targets = [200, 180, 150, 120, 90, 60, 30, 10]
    starts = [14500, 14250, 15500, 13000, 14750, 12250, 16000, 14000]
    line = 'open kwh 160 product ' + '  '.join('%d %d %d' % (t, max(1, t // 4), s) for t, s in zip(targets, starts))
    line += ' bidder ' + ' '.join(str(rnd.randint(40, 80)) for _ in range(32)) + ' row 0 50  5 100  10 150  20 250  30 300  43 425  53 500'
    assert made.open(line)
    while made.auction().phase == model.OPEN and made.auction().round <= rounds:
        bid_round(rnd, made, .004, .7)
        made.calculate(draw_of(rnd, made.auction()))
    made.write()
    return made


def in_lots(path):
    """Two bidders' lots are retained in round 2, of one bidder a lot and a part of the next; what comes in from the second product outbids
    the highest: one in round 3, three in round 4, across both bidders and two lots of the one."""
    made = Made(path)
    assert made.open('open kwh 10 product 6 6 1000  4 4 1000 bidder 6 5 6 4 row 0 500')
    leaves = [(2, 960), (2, 970), (1, 980), (1, 1000)]
    for draw, bids in (
            # of each bidder tranches of the first product, its lots, its priority, and tranches of the second
            ([0, 1, 2, 3], [(6, [], 0, 0), (3, [], 0, 1), (0, [], 0, 4), (0, [], 0, 4)]),
            ([3, 2, 1, 0], [(0, leaves, 0, 0), (1, [(2, 970)], 0, 1), (0, [], 0, 4), (0, [], 0, 4)]),
            ([0, 1, 2, 3], [(0, [], 0, 0), (1, [], 0, 1), (1, [], 1, 3), (0, [], 0, 4)]),
            ([3, 0, 2, 1], [(0, [], 0, 0), (1, [], 0, 1), (1, [], 0, 3), (3, [], 1, 1)])):
        for i, (b, lots, priority, second) in enumerate(bids):
            assert made.bid(i, [[b, lots, priority], [second, [], 0]])
        made.calculate(draw)
    made.write()
    return made


def setting_t(path, third):
    """Document 01's setting T to its third round, of which the bids are given."""
    made = Made(path)
    assert made.open('open kwh 4 product 2 2 1000  2 2 1000 bidder 3 3 3 row 0 100  50 300')
    for bids in ([[(2, 0), (0, 0)], [(1, 0), (1, 0)], [(0, 0), (2, 0)]], [[(0, 0), (2, 1)], [(1, 0), (1, 0)], [(0, 0), (2, 0)]], third):
        for i, bid in enumerate(bids):
            assert made.bid(i, [[b, [], priority] for b, priority in bid])
        made.calculate([0, 1, 2])
    made.write()
    return made


def long_auction(path, rounds):
    """One product of which too much is bid in every round; a second that is outbid in between."""
    made = Made(path)
    assert made.open('open mwday 5 product 3 3 90000  2 2 50000 bidder 3 3 3 row 0 50')
    rnd = random.Random(5)
    while made.auction().phase == model.OPEN and made.auction().round <= rounds:
        a = made.auction()
        for i in range(3):
            if a.round == 1:
                made.bid(i, [[2, [], 0], [1 if i else 0, [], 0]])
            else:
                made.bid(i, [[a.record[i][j].g, [], 0] for j in range(2)])
        if a.round == rounds - 5:
            made.bid(0, [[0, [(1, a.p[0] + 1), (1, a.q[0])], 0], [0, [], 0]])
            made.bid(1, [[0, [(2, a.p[0] + 1)], 0], [1, [], 0]])
        made.calculate(draw_of(rnd, a))
    made.write()
    return made


def main():
    folder = sys.argv[1]
    seed = int(sys.argv[2]) if len(sys.argv) > 2 else 12
    rnd = random.Random(seed)
    phases, kinds = set(), set()
    wrong = []
    for k in range(60):
        made = random_auction(rnd, os.path.join(folder, 'box%d' % k))
        status, raw, error = sheet(made.path)
        a = made.last()
        if status or error:
            wrong.append('auction %d: status %d: %s' % (k, status, error))
        else:
            wrong += ['auction %d: %s' % (k, w) for w in compared(made, raw)]
        phases.add(a.phase)
        for r in made.calculated():
            kinds |= {w for _, _, w in r.done} | ({'default'} if r.defaults else set()) | ({'overridden'} if any(r.mark) else set())
        kinds |= {'cutback'} if made.cut is not None else set()
        kinds |= {g for line in made.lines for g in ('undo', 'void', 'return') if re.search(r': %s|%s:' % (g, g), line)}
    told('60 random auctions, every figure of their pages', wrong)
    told('of them some open, closed and stopped, with every kind of event', sorted(
        {1, 2, 3} - phases) + sorted({'retained', 'denied', 'cancelled', 'freed', 'gone', 'default', 'overridden', 'cutback', 'undo', 'void',
                                      'return'} - kinds))

    # "the denied switch is outbid; bidder 0 has f = 1; prices 970, 913; excess 2"; "instead .. bidder 0 is deemed to bid 2; prices 941, 913"
    for name, third, want in (('outbid', [[(0, 0), (1, 0)], [(1, 0), (1, 0)], [(1, 1), (1, 0)]], ((0, 0, 'freed'), [970, 913])),
                              ('deemed', [[(1, 1), (0, 0)], [(1, 0), (1, 0)], [(0, 0), (2, 0)]], ((0, 0, 'deemed'), [941, 913]))):
        made = setting_t(os.path.join(folder, name), third)
        told('setting T, %s: as document 01 has it' % name,
             [] if (list(made.rounds[3].done), made.auction().p[:2]) == ([want[0]], want[1]) else [made.rounds[3].done, made.auction().p[:2]])
        page_told('setting T, %s: its page' % name, made)

    made = in_lots(os.path.join(folder, 'lots'))
    retained = [[model.as_text(tuple(map(tuple, row[0][2]))) for row in made.rounds[r].holds[:2]] for r in (2, 3, 4)]
    told('lots: retained, the lowest first, and outbid, the highest first',
         [] if retained == [['2@960,1@970', '2@970'], ['2@960', '2@970'], ['1@960', '-']] else retained)
    page_told('lots: its page', made)

    made = largest(random.Random(3), os.path.join(folder, 'largest'), 22)
    page_told('8 products, 32 bidders, %d rounds' % len(made.calculated()), made)
    names = {('bidder', i): 'Bidder & Sons <no. "%d">' % i for i in range(32)}
    names.update({('product', j): 'Region %d, a longer name' % j for j in range(8)})
    names['product', 3] = 'a&b<c>d"e'
    names['bidder', 31] = "l'\u00e9t\u00e9"
    with open(made.path + '.names', 'wb') as file:
        for (kind, k), name in names.items():
            file.write(b'%s %d %s\n' % (kind.encode(), k, name.encode()))
    page_told('the same with names, escaped', made, names=names)
    made = long_auction(os.path.join(folder, 'long'), 75)
    page_told('%d rounds' % len(made.calculated()), made)

    print('%d passed, %d failed' % (passed, failed))
    return failed != 0


if __name__ == '__main__':
    sys.exit(main())
