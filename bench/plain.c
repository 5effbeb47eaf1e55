/* Plain C of the calls count and calculate, this one without overrides, on the same bytes (docs/LAYOUT.md): load them, judge that the
   state stands, calculate, store them; and of a card's reading and writing. For counting executed instructions against the proved code.
   ./plain LETTER N <STATE: k calculates the state N times, c counts it N times, a calculates it and writes its bytes; d reads the largest
   card N times, e writes it N times. */
#include <stdint.h>
#include <stdio.h>
#include <stdlib.h>
#include <string.h>

/* STATE, the state's length, is given by bench/count from crates/layout. */
enum { PRODUCTS = 8, BIDDERS = 32, ROWS = 8, LOTS = 4, PLACES = 256, LAST = 4095 };
enum { OPEN = 1, CLOSED = 2, STOPPED = 3 };

struct product { uint8_t target, cap, mark; uint32_t start, price, before; };
struct seat { uint16_t initial, free; };
struct row { uint16_t percent, decrement; };
struct lot { uint8_t count; uint32_t exit; };
struct record { uint8_t going, denied; struct lot retained[LOTS]; };
struct line { uint8_t tranches, priority; struct lot withdrawn[LOTS]; };

struct auction {
    uint8_t phase, unit, products, bidders, rows;
    uint16_t round, statewide;
    uint32_t filed;
    struct product product[PRODUCTS];
    struct seat seat[BIDDERS];
    struct row row[ROWS];
    struct record record[PLACES];
    struct line line[PLACES];
};

/* ---- The bytes */

static uint16_t get2(const uint8_t *s) { return (uint16_t)(s[0] << 8 | s[1]); }
static uint32_t get3(const uint8_t *s) { return (uint32_t)(s[0] << 16 | s[1] << 8 | s[2]); }
static uint32_t get4(const uint8_t *s) { return (uint32_t)get2(s) << 16 | get2(s + 2); }
static void put2(uint8_t *s, uint32_t x) { s[0] = (uint8_t)(x >> 8), s[1] = (uint8_t)x; }
static void put3(uint8_t *s, uint32_t x) { s[0] = (uint8_t)(x >> 16), put2(s + 1, x); }
static void put4(uint8_t *s, uint32_t x) { put2(s, x >> 16), put2(s + 2, x); }

static void load_lots(struct lot *l, const uint8_t *s) {
    for (int i = 0; i < LOTS; i++, s += 4) l[i] = (struct lot){s[0], get3(s + 1)};
}

static void store_lots(const struct lot *l, uint8_t *s) {
    for (int i = 0; i < LOTS; i++, s += 4) s[0] = l[i].count, put3(s + 1, l[i].exit);
}

static void load(struct auction *a, const uint8_t *s) {
    a->phase = s[0], a->unit = s[1], a->products = s[2], a->bidders = s[3], a->rows = s[4];
    a->round = get2(s + 5), a->statewide = get2(s + 7), a->filed = get4(s + 9);
    s += 13;
    for (int p = 0; p < PRODUCTS; p++, s += 12)
        a->product[p] = (struct product){s[0], s[1], s[11], get3(s + 2), get3(s + 5), get3(s + 8)};
    for (int b = 0; b < BIDDERS; b++, s += 4) a->seat[b] = (struct seat){get2(s), get2(s + 2)};
    for (int i = 0; i < ROWS; i++, s += 4) a->row[i] = (struct row){get2(s), get2(s + 2)};
    for (struct record *r = a->record; r < a->record + PLACES; r++, s += 18)
        r->going = s[0], r->denied = s[1], load_lots(r->retained, s + 2);
    for (struct line *l = a->line; l < a->line + PLACES; l++, s += 18)
        l->tranches = s[0], load_lots(l->withdrawn, s + 1), l->priority = s[17];
}

static void store(const struct auction *a, uint8_t *s) {
    s[0] = a->phase, s[1] = a->unit, s[2] = a->products, s[3] = a->bidders, s[4] = a->rows;
    put2(s + 5, a->round), put2(s + 7, a->statewide), put4(s + 9, a->filed);
    s += 13;
    for (const struct product *t = a->product; t < a->product + PRODUCTS; t++, s += 12)
        s[0] = t->target, s[1] = t->cap, put3(s + 2, t->start), put3(s + 5, t->price), put3(s + 8, t->before), s[11] = t->mark;
    for (const struct seat *t = a->seat; t < a->seat + BIDDERS; t++, s += 4) put2(s, t->initial), put2(s + 2, t->free);
    for (const struct row *t = a->row; t < a->row + ROWS; t++, s += 4) put2(s, t->percent), put2(s + 2, t->decrement);
    for (const struct record *r = a->record; r < a->record + PLACES; r++, s += 18)
        s[0] = r->going, s[1] = r->denied, store_lots(r->retained, s + 2);
    for (const struct line *l = a->line; l < a->line + PLACES; l++, s += 18)
        s[0] = l->tranches, store_lots(l->withdrawn, s + 1), s[17] = l->priority;
}

/* ---- Lots */

static int total(const struct lot *l) { return l[0].count + l[1].count + l[2].count + l[3].count; }

static int lots_are_zero(const struct lot *l) {
    for (int i = 0; i < LOTS; i++) if (l[i].count || l[i].exit) return 0;
    return 1;
}

/* The first used lot has the lowest price, the last the highest. */
static int first_used(const struct lot *l) {
    int i = 0;
    while (i < LOTS - 1 && !l[i].count) i++;
    return i;
}

static int last_used(const struct lot *l) {
    int i = LOTS - 1;
    while (i > 0 && !l[i].count) i--;
    return i;
}

/* ---- "Standing means" */

/* What is held and what is kept of each product. */
struct sums { int held[PRODUCTS], kept[PRODUCTS]; };

static int is_above(const struct auction *a, const struct sums *s, int p) { return s->held[p] > a->product[p].target; }

/* "settings within limits, round 1 to 4,095", "1 <= p <= q, q at most the starting price" */
static int limits(const struct auction *a) {
    if (a->unit > 1 || a->products < 1 || a->products > PRODUCTS || a->bidders < 1 || a->bidders > BIDDERS) return 0;
    if (a->rows < 1 || a->rows > ROWS || a->round < 1 || a->round > LAST) return 0;
    int targets = 0;
    for (int p = 0; p < PRODUCTS; p++) {
        const struct product *t = &a->product[p];
        if (p >= a->products) {
            if (t->target || t->cap || t->start || t->price || t->before || t->mark) return 0;
            continue;
        }
        if (t->target < 1 || t->target > 200 || (p > 0 && t->target > t[-1].target)) return 0;
        if (t->cap < 1 || t->cap > t->target || t->start > 99999) return 0;
        if (t->price < 1 || t->price > t->before || t->before > t->start) return 0;
        targets += t->target;
    }
    if (a->statewide < 1 || a->statewide > targets) return 0;
    for (int b = 0; b < BIDDERS; b++) {
        const struct seat *t = &a->seat[b];
        if (b < a->bidders ? t->initial < 1 || t->initial > a->statewide : t->initial || t->free) return 0;
    }
    for (int i = 0; i < ROWS; i++) {
        const struct row *t = &a->row[i];
        if (i >= a->rows) {
            if (t->percent || t->decrement) return 0;
            continue;
        }
        if (i == 0 ? t->percent != 0 : t->percent <= t[-1].percent) return 0;
        if (t->percent > 60000 || t->decrement < 50 || t->decrement > 500) return 0;
    }
    return a->bidders == BIDDERS || a->filed >> a->bidders == 0;
}

/* "Prices strictly rise, used lots come first, unused ones are zero", each price above p, at most q; 12 of a card asks the same. */
static int exits_fit(const struct lot *l, const struct product *t) {
    uint32_t low = t->price;
    for (int i = 0; i < LOTS; i++) {
        if (!l[i].count) {
            if (l[i].exit) return 0;
            low = t->before; /* none is used after it */
            continue;
        }
        if (l[i].exit <= low || l[i].exit > t->before) return 0;
        low = l[i].exit;
    }
    return 1;
}

/* The records, one by one; what is held and kept is summed on the way. */
static int records_stand(const struct auction *a, struct sums *s) {
    memset(s, 0, sizeof *s);
    for (int b = 0; b < BIDDERS; b++) {
        int mine = a->seat[b].free;
        for (int p = 0; p < PRODUCTS; p++) {
            const struct record *r = &a->record[b * PRODUCTS + p];
            if (b >= a->bidders || p >= a->products) {
                if (r->going || r->denied || !lots_are_zero(r->retained)) return 0;
                continue;
            }
            int kept = r->denied + total(r->retained), held = r->going + kept;
            if (held > a->product[p].cap || !exits_fit(r->retained, &a->product[p])) return 0;
            s->held[p] += held;
            s->kept[p] += kept;
            mine += held;
        }
        if (mine > a->seat[b].initial) return 0;
    }
    for (int p = 0; p < a->products; p++) {
        const struct product *t = &a->product[p];
        if (s->kept[p] && s->held[p] != t->target) return 0;
        if ((s->kept[p] || (a->phase == OPEN && is_above(a, s, p))) && t->price == t->before) return 0;
    }
    return 1;
}

/* A filed card by 8 to 13. */
static int card_stands(const struct auction *a, const struct sums *s, int b) {
    int going = 0, bid = 0, down = 0, up = 0, withdrawn = 0, raised = 0, numbers = 0;
    for (int p = 0; p < a->products; p++) {
        const struct record *r = &a->record[b * PRODUCTS + p];
        const struct line *l = &a->line[b * PRODUCTS + p];
        int fall = r->going > l->tranches ? r->going - l->tranches : 0;
        int rise = l->tranches > r->going ? l->tranches - r->going : 0, leaves = total(l->withdrawn);
        if (l->tranches + r->denied + total(r->retained) > a->product[p].cap) return 0; /* 8 */
        if (fall && !is_above(a, s, p)) return 0; /* 9 */
        if (leaves > fall) return 0; /* 11 */
        if (!exits_fit(l->withdrawn, &a->product[p])) return 0; /* 12 */
        if (l->priority) { /* 13 */
            if (!rise || l->priority > 7 || numbers >> l->priority & 1) return 0;
            numbers |= 1 << l->priority;
        }
        going += r->going, bid += l->tranches, down += fall, up += rise, withdrawn += leaves, raised += rise > 0;
    }
    int free = a->seat[b].free, switched = up > free ? up - free : 0;
    if (bid > going + free) return 0; /* 10 */
    if (withdrawn != down - switched) return 0; /* 11 */
    return numbers == (switched ? (2 << raised) - 2 : 0); /* 13 */
}

static int lines_are_zero(const struct auction *a, int b, int from) {
    for (int p = from; p < PRODUCTS; p++) {
        const struct line *l = &a->line[b * PRODUCTS + p];
        if (l->tranches || !lots_are_zero(l->withdrawn) || l->priority) return 0;
    }
    return 1;
}

static int cards_stand(const struct auction *a, const struct sums *s) {
    for (int b = 0; b < BIDDERS; b++) {
        int filed = a->filed >> b & 1;
        if (!lines_are_zero(a, b, filed ? a->products : 0)) return 0;
        if (filed && !card_stands(a, s, b)) return 0;
    }
    return 1;
}

/* "Total excess supply = the standings above zero, summed, plus all f." */
static int excess(const struct auction *a, const struct sums *s) {
    int sum = 0;
    for (int p = 0; p < a->products; p++) if (is_above(a, s, p)) sum += s->held[p] - a->product[p].target;
    for (int b = 0; b < a->bidders; b++) sum += a->seat[b].free;
    return sum;
}

/* "a product above target is at price 1, or this was round 4,095" */
static int must_stop(const struct auction *a, const struct sums *s) {
    for (int p = 0; p < a->products; p++) if (is_above(a, s, p) && a->product[p].price == 1) return 1;
    return a->round == LAST;
}

static int as_opened(const struct auction *a, const struct sums *s) {
    for (int p = 0; p < a->products; p++) if (s->held[p] || a->product[p].price != a->product[p].start) return 0;
    for (int b = 0; b < a->bidders; b++) if (a->seat[b].free != a->seat[b].initial) return 0;
    return 1;
}

/* "its mark only on products above target in an open round from 2" */
static int marks_stand(const struct auction *a, const struct sums *s) {
    for (int p = 0; p < a->products; p++) {
        int mark = a->product[p].mark;
        if (mark && (mark > 1 || a->phase != OPEN || a->round < 2 || !is_above(a, s, p))) return 0;
    }
    return 1;
}

static int phase_stands(const struct auction *a, const struct sums *s) {
    if (a->phase == OPEN) {
        if (a->round == 1) return as_opened(a, s);
        if (a->round == 2) for (int p = 0; p < a->products; p++) if (s->kept[p]) return 0;
        return excess(a, s) > 0;
    }
    if (a->filed) return 0;
    if (a->phase == CLOSED) return excess(a, s) == 0;
    return a->phase == STOPPED && excess(a, s) > 0 && must_stop(a, s);
}

/* 1, 2 or 3, or 0 with the auction loaded. */
static int state_number(struct auction *a, struct sums *s, const uint8_t *state, size_t length) {
    if (length != STATE) return 1;
    if (state[0] == 0) {
        for (int i = 0; i < STATE; i++) if (state[i]) return 2;
        return 3;
    }
    load(a, state);
    if (!limits(a) || !records_stand(a, s) || !cards_stand(a, s) || !phase_stands(a, s) || !marks_stand(a, s)) return 2;
    return a->phase == OPEN ? 0 : 3;
}

/* ---- Calculating */

/* A record as it becomes, and what of its bid can still be kept or cancelled. */
struct place { struct record holds; struct lot leaving[LOTS]; uint8_t moving, rise, priority; };

/* "The default bid is one lot at q." */
static struct line default_line(const struct auction *a, int k, int ticked) {
    uint8_t going = a->record[k].going;
    struct line l = {0};
    if (!ticked) l.tranches = going;
    else if (going) l.withdrawn[0] = (struct lot){going, a->product[k % PRODUCTS].before};
    return l;
}

/* Step 1. The sums become those of the accepted bids. */
static void accept(const struct auction *a, const uint8_t *ticks, struct place *places, struct sums *s) {
    for (int k = 0; k < a->bidders * PRODUCTS; k++) {
        const struct record *r = &a->record[k];
        int p = k % PRODUCTS;
        struct line l = a->filed >> (k / PRODUCTS) & 1 ? a->line[k] : default_line(a, k, ticks[p]);
        struct place *q = &places[k];
        int up = l.tranches - r->going;
        q->holds = *r;
        q->holds.going = l.tranches;
        memcpy(q->leaving, l.withdrawn, sizeof q->leaving);
        q->moving = (uint8_t)(up < 0 ? -up - total(l.withdrawn) : 0);
        q->rise = (uint8_t)(up > 0 ? up : 0);
        q->priority = l.priority;
        s->held[p] += up;
    }
}

/* Step 2. */
static int keep(const struct auction *a, const uint8_t *ticks, const uint8_t *draw, struct place *places, struct sums *s) {
    for (int kept = 0;; kept++) {
        int p = 0;
        while (p < a->products && !(ticks[p] && s->held[p] < a->product[p].target)) p++;
        if (p == a->products) return kept;
        struct place *best = NULL;
        uint32_t lowest = 0;
        for (int i = 0; i < a->bidders; i++) {
            struct place *q = &places[draw[i] * PRODUCTS + p];
            const struct lot *l = &q->leaving[first_used(q->leaving)];
            if (l->count && (!best || l->exit < lowest)) best = q, lowest = l->exit;
        }
        if (best) { /* into the same lot of the record */
            int i = first_used(best->leaving);
            best->leaving[i].count--;
            best->holds.retained[i].count++;
            best->holds.retained[i].exit = lowest;
        } else {
            int i = 0;
            while (i < a->bidders && !places[draw[i] * PRODUCTS + p].moving) i++;
            if (i == a->bidders) return kept;
            struct place *own = &places[draw[i] * PRODUCTS];
            own[p].moving--;
            own[p].holds.denied++;
            int up = -1;
            for (int o = 0; o < a->products; o++)
                if (own[o].rise && (up < 0 || own[o].priority > own[up].priority)) up = o;
            if (up < 0) return kept;
            own[up].rise--;
            own[up].holds.going--;
            s->held[up]--;
        }
        s->held[p]++;
    }
}

/* Step 3. */
static void deem(const struct auction *a, const uint8_t *ticks, struct place *places) {
    for (int k = 0; k < a->bidders * PRODUCTS; k++)
        if (!ticks[k % PRODUCTS] && places[k].rise) {
            places[k].holds.going += places[k].holds.denied;
            places[k].holds.denied = 0;
        }
}

/* Step 4. */
static int outbid(struct auction *a, const uint8_t *ticks, const uint8_t *draw, struct place *places, struct sums *s) {
    int count = 0;
    for (int b = 0; b < a->bidders; b++) a->seat[b].free = 0;
    for (int p = 0; p < a->products; p++) {
        if (ticks[p]) continue;
        int kept = 0;
        for (int b = 0; b < a->bidders; b++) {
            const struct record *r = &places[b * PRODUCTS + p].holds;
            kept += r->denied + total(r->retained);
        }
        for (; is_above(a, s, p) && kept; kept--, s->held[p]--, count++) {
            int i = 0;
            while (i < a->bidders && !places[draw[i] * PRODUCTS + p].holds.denied) i++;
            if (i < a->bidders) {
                places[draw[i] * PRODUCTS + p].holds.denied--;
                a->seat[draw[i]].free++;
                continue;
            }
            struct lot *best = NULL;
            for (i = 0; i < a->bidders; i++) {
                struct lot *l = places[draw[i] * PRODUCTS + p].holds.retained;
                l += last_used(l);
                if (l->count && (!best || l->exit > best->exit)) best = l;
            }
            if (--best->count == 0) best->exit = 0;
        }
    }
    return count;
}

static uint32_t next_price(const struct auction *a, const struct product *t, int held) {
    int percent = 100 * (held - t->target) / t->target, i = a->rows - 1;
    while (a->row[i].percent > percent) i--;
    uint32_t cut = (t->price * a->row[i].decrement + 5000) / 10000;
    return t->price - (cut ? cut : 1);
}

/* Step 5. */
static void settle(struct auction *a, const struct sums *s) {
    a->filed = 0;
    memset(a->line, 0, sizeof a->line);
    for (int p = 0; p < a->products; p++) a->product[p].mark = 0;
    if (excess(a, s) == 0) {
        a->phase = CLOSED;
    } else if (must_stop(a, s)) {
        a->phase = STOPPED;
    } else {
        a->round++;
        for (int p = 0; p < a->products; p++) {
            struct product *t = &a->product[p];
            if (!is_above(a, s, p)) continue;
            t->before = t->price;
            t->price = next_price(a, t, s->held[p]);
        }
    }
}

/* ---- The calls */

struct answer { int refused, to_file, kept, outbid; };

static int draw_is_right(const uint8_t *draw, size_t length, int bidders) {
    if (length != (size_t)bidders) return 0;
    uint32_t seen = 0;
    for (int i = 0; i < bidders; i++) {
        if (draw[i] >= bidders || seen >> draw[i] & 1) return 0;
        seen |= (uint32_t)1 << draw[i];
    }
    return 1;
}

static struct answer count(const uint8_t *state, size_t length) {
    struct auction a;
    struct sums s;
    int n = state_number(&a, &s, state, length);
    if (n) return (struct answer){.refused = n};
    return (struct answer){.to_file = a.bidders - __builtin_popcount(a.filed)};
}

static struct answer calculate(uint8_t *state, size_t length, const uint8_t *draw, size_t drawn) {
    struct auction a;
    struct sums s;
    struct answer done = {0};
    int n = state_number(&a, &s, state, length);
    if (n) return (struct answer){.refused = n};
    if (!draw_is_right(draw, drawn, a.bidders)) return (struct answer){.refused = 14};
    uint8_t ticks[PRODUCTS] = {0};
    struct place places[PLACES];
    for (int p = 0; p < a.products; p++) ticks[p] = (uint8_t)is_above(&a, &s, p);
    accept(&a, ticks, places, &s);
    done.kept = keep(&a, ticks, draw, places, &s);
    deem(&a, ticks, places);
    done.outbid = outbid(&a, ticks, draw, places, &s);
    for (int k = 0; k < a.bidders * PRODUCTS; k++) a.record[k] = places[k].holds;
    settle(&a, &s);
    store(&a, state);
    return done;
}

/* "Bits packed most significant first": a card's fields, in whole bytes. */
enum { CARD = 114, HEAD = 5 + 12, LINE = 8 + LOTS * (8 + 17) + 3 };

struct bid { uint8_t refused, bidder; uint16_t round; struct line line[PRODUCTS]; };

static size_t card_length(size_t products) { return (HEAD + LINE * products + 7) / 8; }

static uint32_t take(const uint8_t *card, size_t *at, size_t width) {
    size_t end = *at + width, i = *at / 8;
    uint32_t bytes = 0;
    for (; 8 * i < end; i++) bytes = bytes << 8 | card[i];
    *at = end;
    return bytes >> (8 * i - end) & ((1u << width) - 1);
}

static void put(uint8_t *room, size_t *at, size_t width, uint32_t value) {
    size_t end = *at + width, i = (end + 7) / 8;
    for (value <<= 8 * i - end; 8 * i > *at; value >>= 8) room[--i] |= (uint8_t)value;
    *at = end;
}

static struct bid read_card(const uint8_t *card, size_t length, size_t products) {
    struct bid bid = {0};
    size_t at = 0;
    if (products < 1 || products > PRODUCTS) return (struct bid){.refused = 29};
    if (length != card_length(products)) return (struct bid){.refused = 4};
    bid.bidder = (uint8_t)take(card, &at, 5);
    bid.round = (uint16_t)take(card, &at, 12);
    for (struct line *l = bid.line; l < bid.line + products; l++) {
        l->tranches = (uint8_t)take(card, &at, 8);
        for (int k = 0; k < LOTS; k++) {
            l->withdrawn[k].count = (uint8_t)take(card, &at, 8);
            l->withdrawn[k].exit = take(card, &at, 17);
        }
        l->priority = (uint8_t)take(card, &at, 3);
    }
    return take(card, &at, 8 * length - at) ? (struct bid){.refused = 5} : bid;
}

static int write_card(uint8_t *room, size_t length, size_t products, uint8_t bidder, uint16_t round, const struct line *lines) {
    size_t at = 0;
    if (products < 1 || products > PRODUCTS) return 29;
    if (length != card_length(products)) return 4;
    if (bidder > 31 || round > LAST) return 30;
    for (const struct line *l = lines; l < lines + PRODUCTS; l++) {
        int used = l < lines + products;
        if (l->priority > (used ? 7 : 0) || (!used && l->tranches)) return 30;
        for (int k = 0; k < LOTS; k++)
            if (l->withdrawn[k].exit > (used ? 131071u : 0u) || (!used && l->withdrawn[k].count)) return 30;
    }
    memset(room, 0, length);
    put(room, &at, 5, bidder);
    put(room, &at, 12, round);
    for (const struct line *l = lines; l < lines + products; l++) {
        put(room, &at, 8, l->tranches);
        for (int k = 0; k < LOTS; k++) {
            put(room, &at, 8, l->withdrawn[k].count);
            put(room, &at, 17, l->withdrawn[k].exit);
        }
        put(room, &at, 3, l->priority);
    }
    return 0;
}

/* The largest card, with every bit of its fields set, is read or written so many times; the numbers are not the compiler's to know. */
static int cards(char letter, int times) {
    volatile uint8_t length = CARD, products = PRODUCTS;
    uint8_t card[CARD];
    struct bid bid = {0};
    memset(card, 255, CARD);
    card[CARD - 1] = 128;
    if (letter == 'd') {
        for (int i = times; i > 0; i--) bid = read_card(card, length, products);
        if (bid.refused) printf("refused %d\n", bid.refused);
        else printf("bidder %d, round %d, product 7 priority %d\n", bid.bidder, bid.round, bid.line[7].priority);
    } else {
        bid = read_card(card, length, products);
        for (int i = times; i > 0; i--) bid.refused = (uint8_t)write_card(card, length, products, bid.bidder, bid.round, bid.line);
        printf("the last byte is %d\n", card[CARD - 1]);
    }
    return 0;
}

int main(int argc, char **argv) {
    static uint8_t start[STATE], work[STATE];
    uint8_t draw[BIDDERS];
    struct answer done = {0};
    if (argc != 3) return 2;
    char letter = argv[1][0];
    if (letter == 'd' || letter == 'e') return cards(letter, atoi(argv[2]));
    size_t length = fread(start, 1, STATE, stdin);
    for (int i = 0; i < BIDDERS; i++) draw[i] = (uint8_t)i;
    for (int i = atoi(argv[2]); i > 0; i--) {
        memcpy(work, start, STATE);
        done = letter == 'c' ? count(work, length) : calculate(work, length, draw, BIDDERS);
    }
    if (letter == 'a') fwrite(work, 1, STATE, stdout);
    else if (done.refused) printf("refused %d\n", done.refused);
    else if (letter == 'c') printf("still to file %d\n", done.to_file);
    else printf("kept %d, outbid %d\n", done.kept, done.outbid);
    return 0;
}
