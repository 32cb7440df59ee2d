//! Seeded tables for the comparison, in both editions: legal ones of many shapes, damaged ones, and bytes that were never a table;
//! couples of a house and a tour; tables of several parts; and logs to read.

use crate::slow::{OLD, TWO};

/// splitmix64
pub struct Rng(pub u64);

impl Rng {
    pub fn next(&mut self) -> u64 {
        self.0 = self.0.wrapping_add(0x9E37_79B9_7F4A_7C15);
        let mut z = self.0;
        z = (z ^ (z >> 30)).wrapping_mul(0xBF58_476D_1CE4_E5B9);
        z = (z ^ (z >> 27)).wrapping_mul(0x94D0_49BB_1331_11EB);
        z ^ (z >> 31)
    }

    /// below n; n is not 0
    pub fn below(&mut self, n: usize) -> usize {
        ((self.next() >> 32) as usize * n) >> 32
    }

    /// from low to high, both included
    pub fn within(&mut self, low: usize, high: usize) -> usize {
        low + self.below(high - low + 1)
    }

    /// true k times of n
    pub fn chance(&mut self, k: usize, n: usize) -> bool {
        self.below(n) < k
    }

    pub fn pick<T: Copy>(&mut self, from: &[T]) -> T {
        from[self.below(from.len())]
    }

    fn order(&mut self, n: usize) -> Vec<usize> {
        let mut v: Vec<usize> = (0..n).collect();
        for i in (1..n).rev() {
            v.swap(i, self.below(i + 1));
        }
        v
    }
}

pub const LIMITS: [usize; 5] = [512, 1_024, 1_024, 4_096, 2_048];

/// A file, and the edition that a call is told of it.
#[derive(Clone)]
pub struct Table {
    pub edition: u32,
    pub bytes: Vec<u8>,
}

impl Table {
    /// The file of an edition with this layout.
    pub fn of(edition: u32, layout: &[u8]) -> Table {
        let first: &[u8] = if edition == TWO { &[2] } else { &[] };
        Table { edition, bytes: [first, layout].concat() }
    }

    /// The bytes that the sizes begin, as far as there are any.
    pub fn layout(&self) -> &[u8] {
        let first = (self.edition == TWO) as usize;
        &self.bytes[first.min(self.bytes.len())..]
    }
}

type Entry = (u16, u16);

/// A table as sections of (left, right): facts, rules, antecedent entries, pairs. The left word of a rule is its kind, and its origin
/// stands apart.
#[derive(Clone, Default)]
pub struct Draft {
    pub a: usize,
    pub sections: [Vec<Entry>; 4],
    pub origins: Vec<u16>,
}

const FACTS: usize = 0;
const RULES: usize = 1;
const ENTRIES: usize = 2;
const PAIRS: usize = 3;

impl Draft {
    fn atoms(a: usize) -> Draft {
        Draft { a, ..Draft::default() }
    }

    fn n(&self) -> usize {
        self.sections[RULES].len()
    }

    pub fn fact(&mut self, q: usize) {
        self.sections[FACTS].push((0, q as u16));
    }

    pub fn rule(&mut self, kind: usize, head: usize, body: &[usize]) -> usize {
        let r = self.n();
        self.sections[RULES].push((kind as u16, head as u16));
        self.origins.push(0);
        self.sections[ENTRIES].extend(body.iter().map(|&q| (r as u16, q as u16)));
        r
    }

    pub fn pair(&mut self, t: usize, s: usize) {
        self.sections[PAIRS].push((t as u16, s as u16));
    }

    fn head(&self, r: usize) -> usize {
        self.sections[RULES][r].1 as usize
    }

    fn opposed(&self, t: usize, s: usize) -> bool {
        self.head(t) ^ 1 == self.head(s)
    }

    /// facts, entries and pairs sorted, doubles taken out
    pub fn tidy(&mut self) {
        for s in [FACTS, ENTRIES, PAIRS] {
            self.sections[s].sort();
            self.sections[s].dedup();
        }
    }

    /// The file in an edition. The old layout has no place for origins.
    pub fn table(&self, edition: u32) -> Table {
        Table::of(edition, &self.layout(edition))
    }

    fn layout(&self, edition: u32) -> Vec<u8> {
        let mut sections = self.sections.clone();
        if edition == TWO {
            for (rule, origin) in sections[RULES].iter_mut().zip(&self.origins) {
                rule.0 = rule.0.wrapping_add(4 * origin);
            }
        }
        let all: Vec<Entry> = sections.concat();
        let mut words = vec![self.a as u16];
        words.extend(sections.iter().map(|s| s.len() as u16));
        words.extend(all.iter().map(|e| e.0));
        words.extend(all.iter().map(|e| e.1));
        words.iter().flat_map(|w| w.to_le_bytes()).collect()
    }

    /// Origins for the rules: any, one for all, one for a single rule, or none.
    fn give_origins(&mut self, r: &mut Rng) {
        let (style, origin, single) = (r.below(4), r.within(1, 3), r.below(self.n()));
        for i in 0..self.n() {
            self.origins[i] = match style {
                0 => r.below(4),
                1 => origin,
                2 if i == single => origin,
                _ => 0,
            } as u16;
        }
    }

    pub fn without_origins(&self) -> Draft {
        Draft { origins: vec![0; self.n()], ..self.clone() }
    }

    /// A table that is done: in order, and with origins.
    fn done(mut self, r: &mut Rng) -> Draft {
        self.tidy();
        self.give_origins(r);
        self
    }

    /// A tour that disputes what this house says: most of its heads turned round, some of its kinds changed, some facts and pairs left.
    fn disputed(&self, r: &mut Rng) -> Draft {
        let mut d = self.clone();
        for rule in &mut d.sections[RULES] {
            rule.1 ^= r.chance(2, 3) as u16;
            if r.chance(1, 4) {
                rule.0 = r.below(3) as u16;
            }
        }
        for s in [FACTS, PAIRS] {
            d.sections[s].retain(|_| r.chance(2, 3));
        }
        d.done(r)
    }

    /// The first `count` of the pairs that go from a rule to a later one, or all of them.
    fn first_pairs(&mut self, count: usize) {
        let n = self.n();
        let falling = (0..n).flat_map(|t| (t + 1..n).map(move |s| (t, s)));
        falling.take(count).for_each(|(t, s)| self.pair(t, s));
    }

    /// Pairs without a circle: each goes down a random order of the rules. Opposed heads with chance `opposed` of 12, others with
    /// chance `idle` of 12.
    fn all_pairs(&mut self, r: &mut Rng, opposed: usize, idle: usize) {
        let rank = r.order(self.n());
        for t in 0..self.n() {
            for s in 0..self.n() {
                let k = if self.opposed(t, s) { opposed } else { idle };
                if rank[t] < rank[s] && k > 0 && r.chance(k, 12) {
                    self.pair(t, s);
                }
            }
        }
    }

    /// Up to `count` pairs without a circle, for large tables: between opposed rules where one is found quickly.
    fn some_pairs(&mut self, r: &mut Rng, count: usize, idle: usize) {
        if self.n() < 2 {
            return;
        }
        let rank = r.order(self.n());
        let mut with_head = vec![vec![]; 2 * self.a];
        for i in 0..self.n() {
            with_head[self.head(i)].push(i);
        }
        for _ in 0..8 {
            for _ in self.sections[PAIRS].len()..count {
                let t = r.below(self.n());
                let foes = &with_head[self.head(t) ^ 1];
                let s = if foes.is_empty() || r.chance(idle, 12) { r.below(self.n()) } else { r.pick(foes) };
                if rank[t] < rank[s] {
                    self.pair(t, s);
                } else if rank[s] < rank[t] {
                    self.pair(s, t);
                }
            }
            self.tidy();
        }
        // the rest, if the opposed ones are exhausted
        for t in 0..self.n() {
            for s in 0..self.n() {
                if self.sections[PAIRS].len() < count && rank[t] < rank[s] {
                    let e = (t as u16, s as u16);
                    if !self.sections[PAIRS].contains(&e) {
                        self.sections[PAIRS].push(e);
                    }
                }
            }
            if self.sections[PAIRS].len() >= count {
                break;
            }
        }
        self.tidy();
    }
}

/// Three weights for the kinds of one table's rules.
fn kinds(r: &mut Rng) -> [usize; 3] {
    r.pick(&[[1, 1, 1], [1, 4, 1], [0, 1, 0], [0, 3, 1], [1, 0, 0], [2, 3, 0], [1, 6, 2], [0, 1, 1], [5, 1, 0]])
}

fn kind(r: &mut Rng, weights: [usize; 3]) -> usize {
    let x = r.below(weights.iter().sum());
    (0..3).find(|&k| x < weights[..=k].iter().sum()).unwrap()
}

/// A random table: bodies free, layered (atoms below the head's) or of few literals.
fn random(r: &mut Rng, a: usize, n: usize, longest: usize) -> Draft {
    let mut d = Draft::atoms(a);
    let facts = r.pick(&[0, 0, 1, 2, 4, 6]);
    for q in 0..2 * a {
        if r.chance(facts, 12) {
            d.fact(q);
        }
    }
    let weights = kinds(r);
    let style = r.below(3);
    for _ in 0..n {
        let head = r.below(2 * a);
        let room = match style {
            0 => 2 * a,
            1 => head & !1,
            _ => a.max(2).min(2 * a),
        };
        let length = if room == 0 { 0 } else { r.below(longest + 1) };
        let body: Vec<usize> = (0..length).map(|_| r.below(room)).collect();
        let k = kind(r, weights);
        d.rule(k, head, &body);
    }
    d
}

fn random_small(r: &mut Rng) -> Draft {
    let (a, n, longest) = (r.within(1, 5), r.below(11), r.below(4));
    let mut d = random(r, a, n, longest);
    let (x, y) = (r.pick(&[0, 2, 5, 9, 12]), r.pick(&[0, 0, 0, 1, 3]));
    d.all_pairs(r, x, y);
    d
}

/// One rule after another, from a fact, a rule without antecedents or nothing; some attackers on the way.
fn chain(r: &mut Rng) -> Draft {
    let a = r.within(2, 9);
    let mut d = Draft::atoms(a);
    let literal: Vec<usize> = (0..a).map(|i| 2 * i + r.below(2)).collect();
    match r.below(4) {
        0 | 1 => d.fact(literal[0]),
        2 => {
            d.rule(1, literal[0], &[]);
        }
        _ => (),
    }
    let weights = kinds(r);
    let down = r.chance(1, 2);
    for i in 0..a - 1 {
        let i = if down { a - 2 - i } else { i };
        let k = kind(r, weights);
        d.rule(k, literal[i + 1], &[literal[i]]);
        if r.chance(1, 4) {
            let k = kind(r, weights);
            let from = r.below(2 * a);
            let body = if r.chance(1, 2) { vec![] } else { vec![from] };
            d.rule(k, literal[i + 1] ^ 1, &body);
        }
    }
    d.all_pairs(r, 6, 0);
    d
}

/// Circles of rules, with or without a way in, and attackers.
fn loops(r: &mut Rng) -> Draft {
    let a = r.within(1, 6);
    let mut d = Draft::atoms(a);
    let weights = kinds(r);
    for _ in 0..r.within(1, 3) {
        let ring: Vec<usize> = (0..r.within(1, 4)).map(|_| r.below(2 * a)).collect();
        for i in 0..ring.len() {
            let k = kind(r, weights);
            let more = r.below(2 * a);
            let body = if r.chance(1, 4) { vec![ring[i], more] } else { vec![ring[i]] };
            d.rule(k, ring[(i + 1) % ring.len()], &body);
        }
        if r.chance(1, 3) {
            d.rule(1, ring[0], &[]);
        }
        if r.chance(1, 4) {
            d.fact(ring[0]);
        }
        if r.chance(1, 3) {
            let (k, q) = (r.below(3), r.pick(&ring));
            d.rule(k, q ^ 1, &[]);
        }
    }
    d.all_pairs(r, 6, 1);
    d
}

/// Supporters against attackers of atom 0; each rule rests on an atom that is a fact, proved, refuted or open.
fn teams(r: &mut Rng) -> Draft {
    let m = r.within(2, 8);
    let mut d = Draft::atoms(1 + m);
    let weights = kinds(r);
    for i in 1..=m {
        let body = if r.chance(1, 5) { vec![] } else { vec![2 * i] };
        match r.below(6) {
            0 | 1 => d.fact(2 * i),
            2 | 3 => {
                d.rule(1, 2 * i, &[]);
            }
            4 => {
                d.rule(1, 2 * i, &[2 * i]);
            }
            _ => (),
        }
        let (k, side) = (kind(r, weights), r.below(2));
        d.rule(k, side, &body);
    }
    let x = r.within(3, 12);
    d.all_pairs(r, x, 0);
    d
}

/// A team: every attacker of literal 0 is beaten by some supporter, none need beat all. Most rules fire; a pair may be missing.
fn platypus(r: &mut Rng) -> Draft {
    let (supporters, attackers) = (r.within(1, 4), r.within(1, 4));
    let n = supporters + attackers;
    let mut d = Draft::atoms(1 + n);
    let order = r.order(n);
    for i in 0..n {
        let (holds, q) = (r.chance(5, 6), 2 * (i + 1) + r.below(2));
        if holds {
            d.fact(q);
        }
        let kind = if order[i] < supporters { 1 - r.below(8) / 7 } else { 1 + r.below(2) };
        let body = if r.chance(1, 4) { vec![] } else { vec![q] };
        d.rule(kind, (order[i] >= supporters) as usize, &body);
    }
    for s in 0..n {
        if order[s] >= supporters && r.chance(11, 12) {
            let strong = r.below(supporters);
            let t = (0..n).find(|&t| order[t] == strong).unwrap();
            d.pair(t, s);
        }
    }
    d
}

/// Many rules on one atom.
fn crowd(r: &mut Rng, most: usize) -> Draft {
    let a = r.within(1, 3);
    let mut d = Draft::atoms(a);
    let weights = kinds(r);
    for _ in 0..r.within(most / 3, most) {
        let length = r.below(3);
        let body: Vec<usize> = (0..length).map(|_| r.below(2 * a)).collect();
        let (k, side) = (kind(r, weights), r.below(2));
        d.rule(k, side, &body);
    }
    if r.chance(1, 2) {
        d.fact(r.below(2 * a));
    }
    if most < 60 {
        let (x, y) = (r.within(1, 8), r.below(2));
        d.all_pairs(r, x, y);
    } else {
        let count = r.below(LIMITS[4]);
        d.some_pairs(r, count, 1);
    }
    d
}

/// A chain of pairs through all rules, so that a closure would add many; heads alternate, or nearly.
fn deep_pairs(r: &mut Rng) -> Draft {
    let a = r.within(1, 3);
    let mut d = Draft::atoms(a);
    let weights = kinds(r);
    let n = r.within(2, 12);
    for i in 0..n {
        let k = kind(r, weights);
        let head = if r.chance(5, 6) { i % 2 } else { r.below(2 * a) };
        let from = 2 * r.below(a);
        let body = if r.chance(1, 3) { vec![from] } else { vec![] };
        d.rule(k, head, &body);
    }
    let order = r.order(n);
    for w in order.windows(2) {
        d.pair(w[0], w[1]);
    }
    d
}

/// Pairs between rules whose heads are not complementary: they have a price and no effect.
fn idle_pairs(r: &mut Rng) -> Draft {
    let (a, n) = (r.within(1, 4), r.within(2, 8));
    let mut d = random(r, a, n, 2);
    let (x, y) = (r.below(3), r.within(3, 12));
    d.all_pairs(r, x, y);
    d
}

fn facts_only(r: &mut Rng) -> Draft {
    let mut d = Draft::atoms(r.within(1, 12));
    let k = r.within(0, 12);
    for q in 0..2 * d.a {
        if r.chance(k, 12) {
            d.fact(q);
        }
    }
    d
}

pub const SMALL_SHAPES: usize = 12;

/// A small legal table.
pub fn small(r: &mut Rng) -> Draft {
    let d = match r.below(SMALL_SHAPES) {
        0 => Draft::atoms(if r.chance(1, 3) { 0 } else { r.below(20) }),
        1 => facts_only(r),
        2 | 3 | 4 => random_small(r),
        5 => chain(r),
        6 => loops(r),
        7 => teams(r),
        8 => platypus(r),
        9 => crowd(r, 15),
        10 => deep_pairs(r),
        _ => idle_pairs(r),
    };
    d.done(r)
}

/// A legal table of some dozens of atoms and rules.
pub fn medium(r: &mut Rng) -> Draft {
    let d = if r.chance(1, 6) {
        crowd(r, 50)
    } else {
        let (a, n, longest) = (r.within(6, 40), r.within(10, 90), r.within(1, 4));
        let mut d = random(r, a, n, longest);
        let count = r.below(3 * n);
        d.some_pairs(r, count, 2);
        d
    };
    d.done(r)
}

pub const BIG_SHAPES: usize = 10;

/// A legal table with one or all of its sizes at the limit.
pub fn big(r: &mut Rng, shape: usize) -> Draft {
    let [a, _, n, b, p] = LIMITS;
    let weights = kinds(r);
    let mut d = Draft::atoms(a);
    match shape {
        // A alone
        0 => (),
        // A and F: every literal is a fact
        1 => (0..2 * a).for_each(|q| d.fact(q)),
        // all five, every literal a fact (2); N, B and P without facts, layered with a smaller B (3) or free (4)
        2 | 3 | 4 => {
            if shape == 2 {
                (0..2 * a).for_each(|q| d.fact(q));
            }
            for i in 0..n {
                let head = if shape == 3 { r.within(10, 2 * a - 1) } else { r.below(2 * a) };
                let room = if shape == 3 { head & !1 } else { 2 * a };
                let mut body: Vec<usize> = vec![];
                while body.len() < 4 {
                    let q = r.below(room);
                    if !body.contains(&q) {
                        body.push(q);
                    }
                }
                let k = kind(r, weights);
                if shape == 3 && i < n / 4 {
                    body.truncate(1);
                }
                d.rule(k, head, &body);
            }
            d.some_pairs(r, p, 1);
        }
        // N rules without antecedents on all atoms, P pairs
        5 => {
            for _ in 0..n {
                let (k, head) = (kind(r, weights), r.below(2 * a));
                d.rule(k, head, &[]);
            }
            d.some_pairs(r, p, 1);
        }
        // N rules on few atoms, P pairs
        6 => {
            d.a = r.within(1, 6);
            for _ in 0..n {
                let length = r.below(3);
                let body: Vec<usize> = (0..length).map(|_| r.below(2 * d.a)).collect();
                let (k, side) = (kind(r, weights), r.below(2));
                d.rule(k, side, &body);
            }
            d.some_pairs(r, p, 1);
        }
        // a chain through all atoms, N rules, one way for the literal and one for its complement
        7 => {
            let k = r.below(2);
            d.fact(0);
            for i in 0..n {
                let q = 2 * (i % a);
                d.rule(if i < a { k } else { 2 - r.below(2) }, (q + 2) % (2 * a) + i / a, &[q]);
            }
            d.some_pairs(r, 1_000, 0);
        }
        // four rules with all literals as antecedents: B at its limit
        8 => {
            let all: Vec<usize> = (0..2 * a).collect();
            for _ in 0..b / (2 * a) {
                let (k, head) = (kind(r, weights), r.below(8));
                d.rule(k, head, &all);
            }
            for q in 0..2 * a {
                if r.chance(1, 2) && q > 8 {
                    d.fact(q);
                }
            }
            d.all_pairs(r, 6, 6);
        }
        // a single chain of pairs through all N rules, teams on all atoms
        _ => {
            for i in 0..n {
                let k = kind(r, weights);
                let (q, from) = (i % (2 * a), 2 * r.below(a));
                let body = if r.chance(1, 2) { vec![] } else { vec![from] };
                d.rule(k, q, &body);
            }
            for i in 0..n - 1 {
                d.pair(i, i + 1);
            }
        }
    }
    d.done(r)
}

/// A large random legal table within the limits.
pub fn large(r: &mut Rng) -> Draft {
    if r.chance(1, 3) {
        let shape = r.below(BIG_SHAPES);
        return big(r, shape);
    }
    let (a, n) = (r.within(60, 512), r.within(50, 1_024));
    let longest = r.within(1, 4);
    let mut d = random(r, a, n, longest);
    let count = r.below(LIMITS[4]);
    d.some_pairs(r, count, 1);
    d.done(r)
}

/// A house and a tour over the same atoms; at times one of them has more.
fn over_same_atoms(r: &mut Rng, [mut house, mut tour]: [Draft; 2]) -> [Draft; 2] {
    let a = house.a.max(tour.a);
    let more = r.below((LIMITS[0] - a).min(4) + 1);
    let (with_more, apart) = (r.chance(1, 2), r.chance(1, 8));
    (house.a, tour.a) = (a, a);
    if apart {
        *(if with_more { &mut house.a } else { &mut tour.a }) += more;
    }
    [house, tour]
}

/// A small house and a small tour.
pub fn couple(r: &mut Rng) -> [Draft; 2] {
    let house = small(r);
    let tour = if r.chance(1, 2) { house.disputed(r) } else { small(r) };
    over_same_atoms(r, [house, tour])
}

/// A house and a tour of some dozens of atoms and rules.
pub fn medium_couple(r: &mut Rng) -> [Draft; 2] {
    let house = medium(r);
    let tour = if r.chance(1, 2) { house.disputed(r) } else { medium(r) };
    over_same_atoms(r, [house, tour])
}

/// A number around a limit.
fn around(r: &mut Rng, limit: usize) -> usize {
    let more = r.within(limit + 1, 2 * limit);
    r.pick(&[limit - 1, limit, limit, limit + 1, limit + 1, limit + 2, more])
}

/// A number in two parts, each within the limit.
fn parted(r: &mut Rng, number: usize, limit: usize) -> [usize; 2] {
    let first = r.within(number.saturating_sub(limit), number.min(limit));
    [first, number - first]
}

/// Rules without antecedents, about as many as there may be in both tables; few of the tour's have a head that one of the house's is against.
fn many_rules(r: &mut Rng) -> [Draft; 2] {
    let (a, weights, number) = (r.within(256, 512), kinds(r), around(r, LIMITS[2]));
    let (parts, mut guests) = (parted(r, number, LIMITS[2]), false);
    parts.map(|n| {
        let mut d = Draft::atoms(a);
        for _ in 0..n {
            let (k, opposed) = (kind(r, weights), guests && r.chance(1, 64));
            d.rule(k, 2 * r.below(a) + opposed as usize, &[]);
        }
        guests = true;
        d
    })
}

/// Rules of many antecedents, of which both tables have about as many as there may be.
fn many_entries(r: &mut Rng) -> [Draft; 2] {
    let (a, weights, number) = (r.within(300, 512), kinds(r), around(r, LIMITS[3]));
    parted(r, number, LIMITS[3]).map(|entries| {
        let (mut d, mut left, longest) = (Draft::atoms(a), entries, r.within(16, 200));
        while left > 0 {
            let (k, head, from, length) = (kind(r, weights), r.below(2 * a), r.below(2 * a), longest.min(left));
            let body: Vec<usize> = (from..from + length).map(|q| q % (2 * a)).collect();
            d.rule(k, head, &body);
            left -= length;
        }
        d
    })
}

/// Rules for a literal in the house, rules against it in the tour. The house has pairs of its own.
fn against(r: &mut Rng, [n, m]: [usize; 2], own: usize) -> [Draft; 2] {
    let (a, weights) = (r.within(1, 4), kinds(r));
    let mut tables = [(n, 0), (m, 1)].map(|(rules, head)| {
        let mut d = Draft::atoms(a);
        for _ in 0..rules {
            let k = kind(r, weights);
            d.rule(k, head, &[]);
        }
        d
    });
    let most = n * n.saturating_sub(1) / 2;
    tables[0].first_pairs(own);
    tables[1].first_pairs(own.saturating_sub(most));
    tables
}

/// As many added pairs as fit, or nearly, and about as many pairs in all as there may be.
fn many_pairs(r: &mut Rng) -> [Draft; 2] {
    let (n, number) = (r.within(2, 100), r.pick(&[2_047, 2_048, 2_048, 2_049, 2_049, 2_050]));
    let m = number / n - r.below(number / n).min(3);
    let exact = r.pick(&[[32, 64], [64, 32], [16, 128], [33, 63], [63, 33], [2, 1_022]]);
    if r.chance(1, 4) {
        return against(r, exact, 0);
    }
    against(r, [n, m], number - n * m)
}

/// More added pairs than 16 bits count, by what is left of them none or few.
fn wrapping_pairs(r: &mut Rng) -> [Draft; 2] {
    let rules = r.pick(&[[128, 512], [256, 256], [512, 128], [256, 512], [512, 256], [512, 512], [164, 400], [257, 256]]);
    let own = r.pick(&[0, 0, 1, 60]);
    against(r, rules, own)
}

/// Half of a table with every size at its limit, each: half of the facts are of both, and half of the joined pairs are added.
fn halves(r: &mut Rng) -> [Draft; 2] {
    let ([a, f, n, _, _], weights) = (LIMITS, kinds(r));
    [(0..3 * f / 4, 0), (f / 4..f, 1)].map(|(facts, side)| {
        let mut d = Draft::atoms(a);
        facts.for_each(|q| d.fact(q));
        for i in 0..n / 2 {
            let (k, from) = (kind(r, weights), r.below(2 * a - 3));
            d.rule(k, 2 * (i % (n / 4)) + side, &[from, from + 1, from + 2, from + 3]);
        }
        d.first_pairs(n / 2);
        d
    })
}

pub const COUPLE_SHAPES: usize = 5;

/// A house and a tour whose joined sizes are around a limit, by rules, by entries or by pairs, far above it by added pairs, or all at it.
pub fn great_couple(r: &mut Rng, shape: usize) -> [Draft; 2] {
    let tables = match shape {
        0 => many_rules(r),
        1 => many_entries(r),
        2 => many_pairs(r),
        3 => wrapping_pairs(r),
        _ => halves(r),
    };
    let tables = tables.map(|d| d.done(r));
    over_same_atoms(r, tables)
}

/// Atoms in groups that no rule goes across, so that the parts lie within them; in most tables not all of a group are one part. Pairs go
/// anywhere.
fn scattered(r: &mut Rng, a: usize, n: usize, longest: usize) -> Draft {
    let (mut d, weights) = (Draft::atoms(a), kinds(r));
    let (facts, groups) = (r.pick(&[1, 2, 4, 6]), r.within(1, a));
    let group: Vec<usize> = (0..a).map(|_| r.below(groups)).collect();
    for q in 0..2 * a {
        if r.chance(facts, 12) {
            d.fact(q);
        }
    }
    for _ in 0..n {
        let first = r.below(a);
        let atoms: Vec<usize> = (0..a).filter(|&b| group[b] == group[first]).collect();
        let mut literal = || 2 * r.pick(&atoms) + r.below(2);
        let head = literal();
        let body: Vec<usize> = (0..longest).map(|_| literal()).collect();
        let (k, length) = (kind(r, weights), r.below(longest + 1));
        d.rule(k, head, &body[..length]);
    }
    d
}

/// A small legal table of several parts, as a rule, with pairs within them and across.
pub fn small_scattered(r: &mut Rng) -> Draft {
    let (a, longest) = (r.within(2, 14), r.within(1, 3));
    let n = r.below(2 * a);
    let mut d = scattered(r, a, n, longest);
    let (x, y) = (r.pick(&[2, 6, 9]), r.pick(&[0, 1, 3]));
    d.all_pairs(r, x, y);
    d.done(r)
}

/// Likewise, of many atoms: some dozens, or up to the limit.
pub fn large_scattered(r: &mut Rng, most: usize) -> Draft {
    let a = r.within(most / 4, most);
    let (n, longest) = (r.within(a / 4, 2 * a), r.within(1, 2));
    let mut d = scattered(r, a, n, longest);
    let count = r.below(2 * n);
    d.some_pairs(r, count, 6);
    d.done(r)
}

/// Rings of rules that nothing feeds, or hardly anything; rules that rest on them, and others beside them.
fn unfounded(r: &mut Rng) -> Draft {
    let a = r.within(1, 7);
    let (mut d, strict) = (Draft::atoms(a), r.pick(&[0, 1, 3, 6]));
    for _ in 0..r.within(1, 4) {
        let ring: Vec<usize> = (0..r.within(1, 4)).map(|_| r.below(2 * a)).collect();
        for i in 0..ring.len() {
            let (k, more) = (if r.chance(strict, 6) { 0 } else { 1 }, r.pick(&ring));
            let body = if r.chance(1, 5) { vec![ring[i], more] } else { vec![ring[i]] };
            d.rule(k, ring[(i + 1) % ring.len()], &body);
        }
        for _ in 0..r.below(3) {
            let (k, head, from) = (r.below(3), r.below(2 * a), r.pick(&ring));
            d.rule(k, head, &[from]);
        }
        if r.chance(1, 2) {
            let (k, any) = (r.within(1, 2), r.below(2 * a));
            d.rule(k, r.pick(&[ring[0] ^ 1, any]), &[]);
        }
        if r.chance(1, 8) {
            d.fact(r.below(2 * a));
        }
    }
    let (x, y) = (r.pick(&[0, 4, 8, 12]), r.pick(&[0, 0, 1]));
    d.all_pairs(r, x, y);
    d
}

/// Steps of which each waits for the one before: x ⇒ x, ¬y of the step before ⇒ x; a: ⇒ y, b: x ⇒ ¬y and c: ⇒ ¬y, with a over c and b over a.
/// Until x has −∂ no more is known of y, so each search gives −∂ to the x of one step. Atoms and rules in any order; perhaps a rule or a pair
/// is missing.
fn steps(r: &mut Rng, count: usize, whole: bool) -> Draft {
    let literals: Vec<usize> = r.order(2 * count).into_iter().map(|a| 2 * a + r.below(2)).collect();
    let (mut rules, mut pairs): (Vec<(usize, Vec<usize>)>, Vec<(usize, usize)>) = (vec![], vec![]);
    for k in 0..count {
        let (x, y, first) = (literals[2 * k], literals[2 * k + 1], rules.len());
        rules.extend([(y, vec![]), (y ^ 1, vec![x]), (y ^ 1, vec![]), (x, vec![x])]);
        if k > 0 {
            rules.push((x, vec![literals[2 * k - 1] ^ 1]));
        }
        pairs.extend([(first, first + 2), (first + 1, first)]);
    }
    let mut d = Draft::atoms(2 * count);
    let (missing, cut) = (r.below(3 * rules.len()), r.below(3 * pairs.len()));
    let kept: Vec<usize> = r.order(rules.len()).into_iter().filter(|&i| whole || i != missing).collect();
    for &i in &kept {
        d.rule(1, rules[i].0, &rules[i].1);
    }
    let number = |i: usize| kept.iter().position(|&j| j == i);
    for (_, &(t, s)) in pairs.iter().enumerate().filter(|&(i, _)| whole || i != cut) {
        if let (Some(t), Some(s)) = (number(t), number(s)) {
            d.pair(t, s);
        }
    }
    d
}

/// A small legal table for the searches.
pub fn searched(r: &mut Rng) -> Draft {
    let d = match r.below(8) {
        0 | 1 | 2 => unfounded(r),
        3 | 4 => {
            let count = r.within(1, 4);
            steps(r, count, false)
        }
        5 => loops(r),
        6 => teams(r),
        _ => random_small(r),
    };
    d.done(r)
}

/// A large one: as many steps as there can be, or fewer; rules of few literals each; or any.
pub fn large_searched(r: &mut Rng) -> Draft {
    let d = match r.below(4) {
        0 => {
            let count = r.within(100, 205);
            steps(r, count, true)
        }
        1 | 2 => {
            let (a, longest) = (r.within(60, 512), r.within(1, 2));
            let n = r.within(a, LIMITS[2]);
            let mut d = random(r, a, n, longest);
            let count = r.below(LIMITS[4]);
            d.some_pairs(r, count, 1);
            d
        }
        _ => return large(r),
    };
    d.done(r)
}

pub const FAULTS: usize = 14;

/// One fault in the sections. Not every fault makes the table illegal, and a fault in an empty section may do nothing.
pub fn fault(r: &mut Rng, d: &mut Draft, which: usize) {
    let n = d.n() as u16;
    let a2 = 2 * d.a as u16;
    let literal = r.pick(&[a2, a2, a2, a2 + 1, a2 ^ 256, 65_535, a2.wrapping_sub(1), a2 + 2]);
    let rule = r.pick(&[n, n, n, n + 1, n ^ 256, 65_535, n.wrapping_sub(1)]);
    let sorted = r.chance(1, 2);
    // a random place in a section, if it has one
    let mut place = |d: &Draft, s: usize| (!d.sections[s].is_empty()).then(|| r.below(d.sections[s].len()));
    match which {
        0 => {
            if let Some(i) = place(d, FACTS) {
                d.sections[FACTS][i].0 = r.pick(&[1, 2, 4, 255, 256, 65_535]);
            }
        }
        1 => {
            if let Some(i) = place(d, RULES) {
                d.sections[RULES][i].0 = r.pick(&[3, 3, 3, 4, 14, 15, 16, 17, 18, 255, 256, 257, 65_535]);
            }
        }
        2 => match place(d, FACTS) {
            Some(i) => d.sections[FACTS][i].1 = literal,
            None => d.fact(literal as usize),
        },
        3 => {
            if let Some(i) = place(d, RULES) {
                d.sections[RULES][i].1 = literal;
            }
        }
        4 => {
            if let Some(i) = place(d, ENTRIES) {
                d.sections[ENTRIES][i].1 = literal;
            }
        }
        5 => match place(d, ENTRIES) {
            Some(i) => d.sections[ENTRIES][i].0 = rule,
            None => d.sections[ENTRIES].push((rule, 0)),
        },
        6 => match place(d, PAIRS) {
            Some(i) if sorted => d.sections[PAIRS][i].0 = rule,
            Some(i) => d.sections[PAIRS][i].1 = rule,
            None => d.sections[PAIRS].push((0, rule)),
        },
        // two neighbours swapped
        7 => {
            let s = r.pick(&[FACTS, ENTRIES, PAIRS]);
            let length = d.sections[s].len();
            if length > 1 {
                let i = r.below(length - 1);
                d.sections[s].swap(i, i + 1);
            }
        }
        // two equal neighbours
        8 => {
            let s = r.pick(&[FACTS, ENTRIES, PAIRS]);
            if !d.sections[s].is_empty() {
                let i = r.below(d.sections[s].len());
                let e = d.sections[s][i];
                d.sections[s].insert(i, e);
            }
        }
        // a circle of pairs, in order
        9 | 10 => {
            if n > 0 {
                let most = if r.chance(1, 4) { n as usize } else { (n as usize).min(4) };
                let length = r.within(1, most);
                let order = r.order(n as usize);
                for i in 0..length {
                    d.pair(order[i], order[(i + 1) % length]);
                }
                d.sections[PAIRS].sort();
                d.sections[PAIRS].dedup();
            }
        }
        // one word anywhere
        11 => {
            let s = r.below(4);
            if !d.sections[s].is_empty() {
                let i = r.below(d.sections[s].len());
                let new = if r.chance(1, 4) { r.next() as u16 } else { r.below(12) as u16 };
                let e = &mut d.sections[s][i];
                *(if sorted { &mut e.0 } else { &mut e.1 }) = new;
            }
        }
        // an origin beside the kind: wrong in the old layout, added to the rule's own in edition two
        12 => {
            if let Some(i) = place(d, RULES) {
                d.sections[RULES][i].0 |= 4 * r.within(1, 4) as u16;
            }
        }
        // a section turned round, or two entries far apart swapped
        _ => {
            let s = r.pick(&[FACTS, ENTRIES, PAIRS]);
            let length = d.sections[s].len();
            if sorted {
                d.sections[s].reverse();
            } else if length > 1 {
                let (i, j) = (r.below(length), r.below(length));
                d.sections[s].swap(i, j);
            }
        }
    }
}

/// One fault in the bytes of a layout: bytes, words, sizes or the length.
pub fn byte_fault(r: &mut Rng, bytes: &mut Vec<u8>) {
    match r.below(6) {
        0 | 1 => {
            for _ in 0..r.within(1, 3) {
                if !bytes.is_empty() {
                    let i = r.below(bytes.len());
                    bytes[i] = match r.below(3) {
                        0 => r.next() as u8,
                        1 => bytes[i] ^ (1 << r.below(8)),
                        _ => r.below(6) as u8,
                    };
                }
            }
        }
        2 => {
            let by = r.pick(&[1, 1, 2, 3, 4, 8]);
            bytes.truncate(bytes.len().saturating_sub(by));
        }
        3 => {
            for _ in 0..r.pick(&[1, 1, 2, 3, 4, 8]) {
                bytes.push(r.below(4) as u8);
            }
        }
        4 => {
            // a size, the file left as it is
            if bytes.len() >= 10 {
                let i = r.below(5);
                let old = u16::from_le_bytes([bytes[2 * i], bytes[2 * i + 1]]);
                let limit = LIMITS[i] as u16;
                let many = r.next() as u16;
                let size = r.pick(&[limit, limit + 1, limit + 1, limit - 1, old + 1, old.wrapping_sub(1), 65_535, many, 0]);
                bytes[2 * i..2 * i + 2].copy_from_slice(&size.to_le_bytes());
            }
        }
        _ => {
            // two sizes moved against each other, so that the length stays right
            if bytes.len() >= 10 {
                let (i, j) = (r.within(1, 4), r.within(1, 4));
                let at = |k: usize| u16::from_le_bytes([bytes[2 * k], bytes[2 * k + 1]]);
                let (x, y) = (at(i), at(j));
                if i != j && x > 0 {
                    bytes[2 * i..2 * i + 2].copy_from_slice(&(x - 1).to_le_bytes());
                    bytes[2 * j..2 * j + 2].copy_from_slice(&(y + 1).to_le_bytes());
                }
            }
        }
    }
}

/// A fault in the first byte: that of edition two in front of the old layout; in edition two another, none, or one too many.
fn first_byte_fault(r: &mut Rng, t: &mut Table) {
    let any = r.next() as u8;
    match r.below(3) {
        _ if t.edition == OLD => t.bytes.insert(0, 2),
        0 => t.bytes = t.layout().to_vec(),
        1 => t.bytes.insert(0, 2),
        _ => t.bytes[0] = r.pick(&[0, 1, 3, 6, 18, 130, 255, any]),
    }
}

/// A legal table with one to three faults, and with one in the first byte at times.
pub fn damaged(r: &mut Rng, mut d: Draft, edition: u32) -> Table {
    let count = r.pick(&[1, 1, 1, 2, 2, 3]);
    let of_bytes = r.pick(&[0, 0, 0, 1, 2]).min(count);
    for _ in of_bytes..count {
        let which = r.below(FAULTS);
        fault(r, &mut d, which);
    }
    let mut layout = d.layout(edition);
    for _ in 0..of_bytes {
        byte_fault(r, &mut layout);
    }
    let mut t = Table::of(edition, &layout);
    if r.chance(1, 24) {
        first_byte_fault(r, &mut t);
    }
    t
}

/// Bytes that were never a table: any bytes, or small sizes with small words behind them, of the right length or nearly.
pub fn noise(r: &mut Rng, edition: u32) -> Table {
    let layout = noise_bytes(r);
    if r.chance(1, 8) {
        return Table { edition, bytes: layout };
    }
    Table::of(edition, &layout)
}

fn noise_bytes(r: &mut Rng) -> Vec<u8> {
    match r.below(4) {
        0 => (0..r.below(120)).map(|_| r.next() as u8).collect(),
        1 => (0..r.below(60)).map(|_| r.below(3) as u8).collect(),
        _ => {
            let most = r.within(1, 4);
            let sizes: Vec<usize> = (0..5).map(|_| r.below(most)).collect();
            let t: usize = sizes[1..].iter().sum();
            let top = r.within(1, 4);
            let mut words: Vec<u16> = sizes.iter().map(|&s| s as u16).collect();
            words.extend((0..2 * t).map(|i| if i < sizes[1] { 0 } else { r.below(top) as u16 }));
            let mut bytes: Vec<u8> = words.iter().flat_map(|w| w.to_le_bytes()).collect();
            if r.chance(1, 8) {
                byte_fault(r, &mut bytes);
            }
            bytes
        }
    }
}

/// A table with the k-th size at `value` and every other size 0 (A 1 where k is not 0), with the length that the sizes ask for.
pub fn sized(k: usize, value: usize) -> Vec<u8> {
    let mut sizes = [1, 0, 0, 0, 0];
    sizes[k] = value;
    let t: usize = sizes[1..].iter().sum();
    let mut bytes: Vec<u8> = sizes.iter().flat_map(|&s| (s as u16).to_le_bytes()).collect();
    bytes.resize(10 + 4 * t, 0);
    bytes
}

/// Lines of these antecedents, in any order: often +∂ of all, with −∂ beside it or without.
fn tagged(r: &mut Rng, body: &[usize]) -> Vec<u16> {
    let delta = r.pick(&[0, 3, 12]);
    let chances = [delta, delta, r.pick(&[4, 10, 12, 12]), r.pick(&[0, 0, 1, 6])];
    let mut lines = vec![];
    for &q in body {
        for tag in 0..4 {
            if r.chance(chances[tag], 12) {
                lines.push((4 * q + tag) as u16);
            }
        }
    }
    r.order(lines.len()).into_iter().map(|i| lines[i]).collect()
}

/// A word of a log taken out, changed or put in. The new one is a line of an antecedent or of its complement, a line again, no line of
/// the table though its lowest bits are those of one, or any word.
fn disturb(r: &mut Rng, a: usize, body: &[usize], log: &mut Vec<u16>) {
    let near = if body.is_empty() { r.below(8 * a) } else { 4 * (r.pick(body) ^ r.below(2)) + r.below(4) };
    let again = if log.is_empty() { near } else { r.pick(log) as usize };
    let (past, any) = (4_096 * r.within(1, 15) + near, r.below(65_536));
    let word = r.pick(&[near, near, again, again, past, 8 * a + near, 8 * a, 65_535, any]) as u16;
    let at = r.below(log.len() + 1);
    match r.below(4) {
        0 if at < log.len() => {
            log.remove(at);
        }
        1 if at < log.len() => log[at] = word,
        _ => log.insert(at, word),
    }
}

/// Thousands of words, all alike or of one kind, and the log before them, behind them or among them.
fn lengthen(r: &mut Rng, a: usize, log: &mut Vec<u16>) {
    let (kind, length) = (r.below(4), r.within(1_000, 4_000));
    let more: Vec<u16> = (0..length)
        .map(|_| match kind {
            0 => r.next() as u16,
            // Δ lines
            1 => (4 * r.below(2 * a) + r.below(2)) as u16,
            2 => (8 * a) as u16,
            _ => 65_535,
        })
        .collect();
    let at = r.below(length);
    let at = r.pick(&[0, at, length, length]);
    *log = [&more[..at], log, &more[at..]].concat();
}

/// A log to read for a rule with these antecedents, of a table of `a` atoms: from the lines of a run, lines of the antecedents, any lines
/// or any words, with changes or without.
pub fn log(r: &mut Rng, a: usize, body: &[usize], lines: &[u16]) -> Vec<u16> {
    let count = r.below(4 * a.min(LIMITS[0]) + 1);
    let mut log = match r.below(8) {
        0 => vec![],
        1 => lines.to_vec(),
        // those worked, perhaps
        2 => lines[..r.below(lines.len() + 1)].to_vec(),
        3 => (0..count).map(|_| r.below(8 * a) as u16).collect(),
        4 => (0..count).map(|_| r.next() as u16).collect(),
        _ => tagged(r, body),
    };
    for _ in 0..r.pick(&[0, 0, 1, 2, 6]) {
        disturb(r, a, body, &mut log);
    }
    if r.chance(1, 24) {
        lengthen(r, a, &mut log);
    }
    log
}
