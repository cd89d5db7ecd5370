//! A yardstick for the speed of the program: the same answer for a job without asks, as an expert would write it for
//! just this purpose, in plain Rust with std alone and nothing proved. It trusts its job.
//!
//!     rustc -C opt-level=3 -o yardstick yardstick.rs
//!     ./yardstick [STATISTIC..] < JOB
//!     ./yardstick sizes < JOB             the answer with the sizes of the graph alone, and no line for a vertex
//!     ./yardstick growth < JOB            grows the graph of the starts and prints how that ended, and no more
//!     ./yardstick steps < JOB             grows it, takes the steps of the shared table for it, and prints their microseconds
//!
//! What makes it fast: a component is what lowering reaches from the tops of its roots; a word is its code, and an
//! operator adds a multiple of a place value; a row of a table has all indices of an element, and one pass over the
//! factors serves them all; a table of one word a slot; a radix sort; ranks written where the codes were found; texts
//! of elements made once.

use std::collections::{HashMap, HashSet};
use std::io::{self, Read, Write};
use std::process::exit;
use std::sync::atomic::{AtomicU64, Ordering::SeqCst};
use std::time::Instant;

/// The place of an operator that gives zero.
const NOWHERE: u8 = u8::MAX;
const NONE: u32 = u32::MAX;
const ONES: u64 = 0x0101_0101_0101_0101;

/// Eight small numbers, one for each index, a byte each: that of the index i is byte i - 1. They stay below 128.
#[derive(Clone, Copy)]
struct Lanes(u64);

impl Lanes {
    const ZERO: Lanes = Lanes(0);

    fn all(number: u8) -> Lanes {
        Lanes(ONES * u64::from(number))
    }

    fn of(numbers: impl Fn(usize) -> u8) -> Lanes {
        Lanes(u64::from_le_bytes(std::array::from_fn(numbers)))
    }

    fn at(self, i: usize) -> u8 {
        (self.0 >> (8 * i)) as u8
    }

    fn more(self, other: Lanes) -> Lanes {
        Lanes(self.0 + other.0)
    }

    /// Each number less the other, and 0 where that is greater.
    fn less(self, other: Lanes) -> Lanes {
        let lifted = (self.0 | ONES << 7) - other.0;
        let not_below = (lifted >> 7 & ONES) * 127;
        Lanes(lifted & not_below)
    }

    /// All bits of a byte where the number is not 0.
    fn mask(self) -> u64 {
        (self.0 + ONES * 127 >> 7 & ONES) * 255
    }

    /// `new` where `test` is not 0, else what stands here.
    fn replaced(self, test: Lanes, new: Lanes) -> Lanes {
        let mask = test.mask();
        Lanes(self.0 & !mask | new.0 & mask)
    }
}

// ---------------------------------------------------------------------------------------------------- base crystals

#[derive(Clone, Copy, PartialEq)]
enum Kind {
    A,
    B,
    C,
    D,
}

#[derive(Clone, Copy)]
struct Cartan {
    kind: Kind,
    rank: usize,
}

impl Cartan {
    fn coordinates(self) -> usize {
        self.rank + usize::from(self.kind == Kind::A)
    }

    fn letters(self) -> Vec<i32> {
        let r = self.rank as i32;
        let (last, zero) = (r + i32::from(self.kind == Kind::A), self.kind == Kind::B);
        let mirrored = if self.kind == Kind::A { 0 } else { r };
        (1..=last).chain(zero.then_some(0)).chain((1..=mirrored).rev().map(|x| -x)).collect()
    }

    /// What f_i makes of a letter.
    fn lower_letter(self, i: i32, x: i32) -> Option<i32> {
        let r = self.rank as i32;
        match self.kind {
            Kind::A if x == i => Some(i + 1),
            Kind::A => None,
            _ if i < r && x == i => Some(i + 1),
            _ if i < r && x == -i - 1 => Some(-i),
            _ if i < r => None,
            Kind::B if x == r => Some(0),
            Kind::B if x == 0 => Some(-r),
            Kind::C if x == r => Some(-r),
            Kind::D if x == r - 1 => Some(-r),
            Kind::D if x == r => Some(1 - r),
            _ => None,
        }
    }

    /// What f_i makes of a vector of signs, where true is a minus.
    fn lower_signs(self, i: usize, signs: &[bool]) -> Option<Vec<bool>> {
        let r = self.rank;
        let (old, new, at): (&[bool], &[bool], usize) = match self.kind {
            _ if i < r => (&[false, true], &[true, false], i - 1),
            Kind::B => (&[false], &[true], r - 1),
            _ => (&[false, false], &[true, true], r - 2),
        };
        if &signs[at..at + old.len()] != old {
            return None;
        }
        let mut lowered = signs.to_vec();
        lowered[at..at + new.len()].copy_from_slice(new);
        Some(lowered)
    }
}

/// How often the operators can be applied to an element.
#[derive(Clone, Copy)]
struct Signs {
    phi: Lanes,
    eps: Lanes,
}

/// Base crystals, element by element in the order of their digits: signs, what the operators make of the element,
/// doubled weights, and texts.
#[derive(Default)]
struct Bases {
    signs: Vec<Signs>,
    lower: Vec<[u16; 8]>,
    raise: Vec<[u16; 8]>,
    weights: Vec<[i8; 16]>,
    texts: Vec<String>,
}

impl Bases {
    /// Adds the crystal of these elements, given the digits to which the lowering operators lead.
    fn add(&mut self, cartan: Cartan, texts: Vec<String>, weights: Vec<[i8; 16]>, lower: Vec<[u16; 8]>) {
        let mut raise = vec![[u16::MAX; 8]; lower.len()];
        for d in 0..lower.len() {
            for i in 0..cartan.rank {
                if let Some(up) = raise.get_mut(lower[d][i] as usize) {
                    up[i] = d as u16;
                }
            }
        }
        let length = |step: &[[u16; 8]], mut d: usize, i: usize| {
            let mut steps = 0;
            while let Some(&next) = step.get(d) {
                d = next[i] as usize;
                steps += 1;
            }
            steps - 1
        };
        let of = |step: &[[u16; 8]], d: usize| Lanes::of(|i| if i < cartan.rank { length(step, d, i) } else { 0 });
        self.signs.extend((0..lower.len()).map(|d| Signs { phi: of(&lower, d), eps: of(&raise, d) }));
        self.lower.extend(lower);
        self.raise.extend(raise);
        self.weights.extend(weights);
        self.texts.extend(texts);
    }

    fn add_factor(&mut self, cartan: Cartan, name: &str) {
        match name {
            "v" => self.add_vector(cartan),
            "s" => self.add_spin(cartan, None),
            name => self.add_spin(cartan, Some(name == "s-")),
        }
    }

    fn add_vector(&mut self, cartan: Cartan) {
        let all = cartan.letters();
        let digit = |y: i32| all.iter().position(|&x| x == y).unwrap() as u16;
        let mut weights = vec![[0; 16]; all.len()];
        let mut lower = vec![[u16::MAX; 8]; all.len()];
        for (d, &x) in all.iter().enumerate() {
            if x != 0 {
                weights[d][x.unsigned_abs() as usize - 1] = 2 * x.signum() as i8;
            }
            for i in 1..=cartan.rank {
                if let Some(y) = cartan.lower_letter(i as i32, x) {
                    lower[d][i - 1] = digit(y);
                }
            }
        }
        self.add(cartan, all.iter().map(i32::to_string).collect(), weights, lower);
    }

    /// All vectors of signs, or those with an even or odd number of minus signs.
    fn add_spin(&mut self, cartan: Cartan, odd: Option<bool>) {
        let r = cartan.rank;
        let all: Vec<Vec<bool>> = (0..1u32 << r)
            .filter(|n| odd.is_none_or(|o| o == (n.count_ones() % 2 == 1)))
            .map(|n| (0..r).map(|j| n >> (r - 1 - j) & 1 == 1).collect())
            .collect();
        let mut weights = vec![[0; 16]; all.len()];
        let mut lower = vec![[u16::MAX; 8]; all.len()];
        for (d, signs) in all.iter().enumerate() {
            for j in 0..r {
                weights[d][j] = if signs[j] { -1 } else { 1 };
            }
            for i in 1..=r {
                if let Some(y) = cartan.lower_signs(i, signs) {
                    lower[d][i - 1] = all.iter().position(|x| *x == y).unwrap() as u16;
                }
            }
        }
        let texts = all.iter().map(|x| x.iter().map(|&minus| if minus { '-' } else { '+' }).collect());
        self.add(cartan, texts.collect(), weights, lower);
    }
}

// ----------------------------------------------------------------------------------------------------------- spaces

type Digits = [u8; 40];

/// The places where the operators of one direction act, and how often they can be applied.
struct Pass {
    at: Lanes,
    length: Lanes,
}

struct Space {
    cartan: Cartan,
    bases: Bases,
    /// For each factor the place of its first element, its size, and what its digit counts in a code.
    first: Vec<usize>,
    size: Vec<u64>,
    value: Vec<u64>,
    /// The number of bits of a digit, where all factors have one size that is a power of 2.
    bits: Option<u32>,
    /// The tensor product is read from right to left.
    reversed: bool,
}

impl Space {
    fn new(cartan: Cartan, factors: &[&str], reversed: bool) -> Space {
        let mut bases = Bases::default();
        let mut known: HashMap<&str, (usize, u64)> = HashMap::new();
        for &name in factors {
            known.entry(name).or_insert_with(|| {
                let first = bases.signs.len();
                bases.add_factor(cartan, name);
                (first, (bases.signs.len() - first) as u64)
            });
        }
        let size: Vec<u64> = factors.iter().map(|name| known[name].1).collect();
        let mut value = vec![1; factors.len()];
        for place in (1..factors.len()).rev() {
            value[place - 1] = value[place] * size[place];
        }
        let alike = size.iter().all(|&n| n == size[0] && n.is_power_of_two());
        Space {
            cartan,
            bases,
            first: factors.iter().map(|name| known[name].0).collect(),
            bits: alike.then(|| size[0].trailing_zeros()),
            size,
            value,
            reversed,
        }
    }

    fn digits(&self, mut code: u64) -> Digits {
        let mut digits = [0; 40];
        for place in (0..self.size.len()).rev() {
            match self.bits {
                Some(bits) => {
                    digits[place] = (code & ((1 << bits) - 1)) as u8;
                    code >>= bits;
                }
                None => {
                    digits[place] = (code % self.size[place]) as u8;
                    code /= self.size[place];
                }
            }
        }
        digits
    }

    fn element(&self, digits: &Digits, place: usize) -> usize {
        self.first[place] + digits[place] as usize
    }

    /// Where the operators act whose signs `own` gives, when the factors come in this order, and each sign of `other`
    /// is cancelled with the next sign of `own` behind it: at the last sign that is left over.
    #[inline(always)]
    fn pass(&self, digits: &Digits, order: impl Iterator<Item = usize>, split: impl Fn(Signs) -> (Lanes, Lanes)) -> Pass {
        let (mut open, mut at, mut length) = (Lanes::ZERO, Lanes::all(NOWHERE), Lanes::ZERO);
        for place in order {
            let (own, other) = split(self.bases.signs[self.element(digits, place)]);
            let left = own.less(open);
            at = at.replaced(left, Lanes::all(place as u8));
            length = length.more(left);
            open = open.less(own).more(other);
        }
        Pass { at, length }
    }

    fn lowering(&self, digits: &Digits) -> Pass {
        let n = self.size.len();
        if self.reversed {
            self.pass(digits, (0..n).rev(), |x| (x.phi, x.eps))
        } else {
            self.pass(digits, 0..n, |x| (x.phi, x.eps))
        }
    }

    fn raising(&self, digits: &Digits) -> Pass {
        let n = self.size.len();
        if self.reversed {
            self.pass(digits, 0..n, |x| (x.eps, x.phi))
        } else {
            self.pass(digits, (0..n).rev(), |x| (x.eps, x.phi))
        }
    }

    fn moved(&self, code: u64, digits: &Digits, at: Lanes, i: usize, down: bool) -> Option<u64> {
        if at.at(i) == NOWHERE {
            return None;
        }
        let place = at.at(i) as usize;
        let element = self.element(digits, place);
        let to = if down { self.bases.lower[element][i] } else { self.bases.raise[element][i] };
        let change = u64::from(to).wrapping_sub(u64::from(digits[place]));
        Some(code.wrapping_add(change.wrapping_mul(self.value[place])))
    }

    fn acted(&self, code: u64, i: usize, down: bool) -> Option<u64> {
        let digits = self.digits(code);
        let pass = if down { self.lowering(&digits) } else { self.raising(&digits) };
        self.moved(code, &digits, pass.at, i, down)
    }

    fn top(&self, code: u64) -> u64 {
        match (0..self.cartan.rank).find_map(|i| self.acted(code, i, false)) {
            Some(raised) => self.top(raised),
            None => code,
        }
    }

    fn weight(&self, digits: &Digits) -> [i8; 16] {
        let mut weight = [0; 16];
        for place in 0..self.size.len() {
            let own = &self.bases.weights[self.element(digits, place)];
            weight = std::array::from_fn(|j| weight[j] + own[j]);
        }
        weight
    }

    fn read(&self, tokens: &[&str]) -> u64 {
        let digit = |place: usize, token: &str| {
            let texts = &self.bases.texts[self.first[place]..][..self.size[place] as usize];
            let bare = token.trim_start_matches('0');
            let token = if bare.is_empty() { "0" } else { bare };
            texts.iter().position(|text| text == token).unwrap_or_else(|| fail("no word")) as u64
        };
        tokens.iter().enumerate().map(|(place, token)| digit(place, token) * self.value[place]).sum()
    }
}

// ----------------------------------------------------------------------------------------------------------- growth

/// Codes in the order in which they were found. A slot has the number of a code, from 1, behind the low half of its hash;
/// its place is the high end of the hash.
struct Found {
    codes: Vec<u64>,
    slots: Vec<(u32, u32)>,
}

fn hash(code: u64) -> u64 {
    code.wrapping_mul(0x9e37_79b9_7f4a_7c15)
}

impl Found {
    fn new() -> Found {
        Found { codes: vec![], slots: vec![(0, 0); 1 << 12] }
    }

    /// The number of a code, which is added where it is not there.
    fn number_of(&mut self, code: u64) -> u32 {
        if self.codes.len() * 5 >= self.slots.len() * 3 {
            self.widen();
        }
        match self.search(code) {
            (_, Some(number)) => number,
            (slot, None) => {
                self.codes.push(code);
                self.slots[slot] = (hash(code) as u32, self.codes.len() as u32);
                self.codes.len() as u32 - 1
            }
        }
    }

    /// The slot of the code, and its number if it is there.
    fn search(&self, code: u64) -> (usize, Option<u32>) {
        let hash = hash(code);
        let mut slot = (hash >> (64 - self.slots.len().trailing_zeros())) as usize;
        loop {
            let (half, next) = self.slots[slot];
            if next == 0 {
                return (slot, None);
            }
            if half == hash as u32 && self.codes[next as usize - 1] == code {
                return (slot, Some(next - 1));
            }
            slot = (slot + 1) & (self.slots.len() - 1);
        }
    }

    fn widen(&mut self) {
        self.slots = vec![(0, 0); 4 * self.slots.len()];
        for k in 0..self.codes.len() {
            let (slot, _) = self.search(self.codes[k]);
            self.slots[slot] = (hash(self.codes[k]) as u32, k as u32 + 1);
        }
    }
}

/// A graph: its codes, ascending, the ranks to which the lowering operators lead, and the number of those that lead
/// somewhere.
struct Graph {
    codes: Vec<u64>,
    targets: Vec<u32>,
    arrows: usize,
}

/// The graph of the components of these roots, if there are cells for it.
fn grown(space: &Space, roots: &[u64], cells: usize) -> Option<Graph> {
    let (found, nexts) = found(space, roots, cells)?;
    Some(numbered(&found, &nexts, space.cartan.rank))
}

/// The codes of the components of these roots, if there are cells for them, and the numbers of the codes to which the
/// lowering operators lead.
fn found(space: &Space, roots: &[u64], cells: usize) -> Option<(Vec<u64>, Vec<u32>)> {
    let rank = space.cartan.rank;
    let (mut found, mut nexts) = (Found::new(), vec![]);
    for &root in roots {
        found.number_of(space.top(root));
    }
    let mut done = 0;
    while done < found.codes.len() {
        let code = found.codes[done];
        let digits = space.digits(code);
        let at = space.lowering(&digits).at;
        for i in 0..rank {
            let next = space.moved(code, &digits, at, i, true);
            nexts.push(next.map_or(NONE, |next| found.number_of(next)));
        }
        if found.codes.len() > cells {
            return None;
        }
        done += 1;
    }
    Some((found.codes, nexts))
}

/// The graph of these codes, numbered in ascending order.
fn numbered(found: &[u64], nexts: &[u32], rank: usize) -> Graph {
    let order = ascending(found);
    let mut ranks = vec![0; order.len()];
    for (rank, &number) in order.iter().enumerate() {
        ranks[number as usize] = rank as u32;
    }
    let mut targets = Vec::with_capacity(nexts.len());
    for &number in &order {
        let row = &nexts[number as usize * rank..][..rank];
        targets.extend(row.iter().map(|&next| if next == NONE { NONE } else { ranks[next as usize] }));
    }
    Graph {
        codes: order.iter().map(|&number| found[number as usize]).collect(),
        arrows: targets.iter().filter(|&&target| target != NONE).count(),
        targets,
    }
}

/// The numbers of the codes in ascending order of these, sorted by eleven bits at a time.
fn ascending(codes: &[u64]) -> Vec<u32> {
    let greatest = codes.iter().copied().max().unwrap_or(0);
    let mut order: Vec<u32> = (0..codes.len() as u32).collect();
    let mut sorted = vec![0; codes.len()];
    let mut shift = 0;
    while shift < 64 && greatest >> shift > 0 {
        let part = |code: u64| (code >> shift) as usize & 2047;
        let mut begins = [0usize; 2048];
        codes.iter().for_each(|&code| begins[part(code)] += 1);
        let mut sum = 0;
        for begin in &mut begins {
            sum += std::mem::replace(begin, sum);
        }
        for &number in &order {
            let begin = &mut begins[part(codes[number as usize])];
            sorted[*begin] = number;
            *begin += 1;
        }
        std::mem::swap(&mut order, &mut sorted);
        shift += 11;
    }
    order
}

// ------------------------------------------------------------------------------------------------------------- text

fn push_number(out: &mut Vec<u8>, mut number: u64) {
    if number < 10 {
        return out.push(b'0' + number as u8);
    }
    let mut digits = [0; 20];
    let mut first = digits.len();
    while number > 0 {
        first -= 1;
        digits[first] = b'0' + (number % 10) as u8;
        number /= 10;
    }
    out.extend_from_slice(&digits[first..]);
}

fn push_word(out: &mut Vec<u8>, space: &Space, digits: &Digits) {
    for place in 0..space.size.len() {
        if place > 0 {
            out.push(b' ');
        }
        out.extend_from_slice(space.bases.texts[space.element(digits, place)].as_bytes());
    }
}

fn push_weight(out: &mut Vec<u8>, space: &Space, weight: &[i8; 16]) {
    for (j, &doubled) in weight[..space.cartan.coordinates()].iter().enumerate() {
        if j > 0 {
            out.push(b' ');
        }
        if doubled < 0 {
            out.push(b'-');
        }
        let size = u64::from(doubled.unsigned_abs());
        if size % 2 == 0 {
            push_number(out, size / 2);
        } else {
            push_number(out, size);
            out.extend_from_slice(b"/2");
        }
    }
}

fn push_vertices(out: &mut Vec<u8>, space: &Space, graph: &Graph) {
    out.reserve(graph.codes.len() * 80);
    for (rank, &code) in graph.codes.iter().enumerate() {
        let digits = space.digits(code);
        push_number(out, rank as u64);
        out.extend_from_slice(b" | ");
        push_word(out, space, &digits);
        out.extend_from_slice(b" | ");
        push_weight(out, space, &space.weight(&digits));
        out.extend_from_slice(b" |");
        let before = out.len();
        for i in 0..space.cartan.rank {
            let target = graph.targets[rank * space.cartan.rank + i];
            if target != NONE {
                out.extend_from_slice(&[b' ', b'1' + i as u8, b':']);
                push_number(out, u64::from(target));
            }
        }
        if out.len() == before {
            out.extend_from_slice(b" -");
        }
        out.push(b'\n');
    }
}

// ------------------------------------------------------------------------------------------------------- statistics

fn push_statistic(out: &mut Vec<u8>, space: &Space, graph: &Graph, name: &str) {
    out.extend_from_slice(format!("statistic {name}\n").as_bytes());
    match name {
        "character" => push_character(out, space, graph),
        "strings" => push_strings(out, space, graph),
        "ends" => push_ends(out, space, graph),
        _ => fail("no statistic"),
    }
}

fn push_character(out: &mut Vec<u8>, space: &Space, graph: &Graph) {
    // a weight as one number, in the same order
    let number = |code: &u64| u128::from_be_bytes(space.weight(&space.digits(*code)).map(|x| (x as u8) ^ 128));
    let mut weights: Vec<u128> = graph.codes.iter().map(number).collect();
    weights.sort_unstable_by(|a, b| b.cmp(a));
    for same in weights.chunk_by(|a, b| a == b) {
        push_weight(out, space, &same[0].to_be_bytes().map(|x| (x ^ 128) as i8));
        out.extend_from_slice(format!(" | {}\n", same.len()).as_bytes());
    }
}

fn push_strings(out: &mut Vec<u8>, space: &Space, graph: &Graph) {
    let (mut count, mut longest) = ([0usize; 8], [0; 8]);
    for &code in &graph.codes {
        let digits = space.digits(code);
        let (eps, phi) = (space.raising(&digits).length, space.lowering(&digits).length);
        for i in 0..space.cartan.rank {
            if eps.at(i) == 0 {
                count[i] += 1;
                longest[i] = longest[i].max(phi.at(i));
            }
        }
    }
    for i in 0..space.cartan.rank {
        out.extend_from_slice(format!("{} | {} | {}\n", i + 1, count[i], longest[i]).as_bytes());
    }
}

fn push_ends(out: &mut Vec<u8>, space: &Space, graph: &Graph) {
    let is_end = |code: &&u64| {
        let digits = space.digits(**code);
        let (eps, phi) = (space.raising(&digits).length, space.lowering(&digits).length);
        eps.mask() & phi.mask() == 0
    };
    out.extend_from_slice(format!("{}\n", graph.codes.iter().filter(is_end).count()).as_bytes());
}

// --------------------------------------------------------------------------------------------------------- sessions

enum Command {
    Add(u64),
    Find(u64),
    Look(bool, usize, u64),
    Move(bool, usize, u64),
    Weight(u64),
    Length(bool, usize, u64),
}

/// The graph that the sessions grow: the codes that are there and the arrows that are drawn.
struct Desk<'a> {
    space: &'a Space,
    cells: usize,
    there: HashSet<u64>,
    drawn: HashSet<(bool, usize, u64)>,
}

impl Desk<'_> {
    fn add(&mut self, code: u64) -> &'static str {
        if self.there.contains(&code) {
            "old"
        } else if self.there.len() == self.cells {
            "full"
        } else {
            self.there.insert(code);
            "new"
        }
    }

    fn push_code(&self, out: &mut Vec<u8>, code: Option<u64>) {
        match code {
            Some(code) => push_word(out, self.space, &self.space.digits(code)),
            None => out.extend_from_slice(b"zero"),
        }
    }

    fn push_reply(&mut self, out: &mut Vec<u8>, command: &Command) {
        match *command {
            Command::Add(code) => out.extend_from_slice(self.add(code).as_bytes()),
            Command::Find(code) if self.there.contains(&code) => out.extend_from_slice(b"there"),
            Command::Find(code) | Command::Look(_, _, code) | Command::Move(_, _, code) if !self.there.contains(&code) => {
                out.extend_from_slice(b"absent")
            }
            Command::Look(down, i, code) if self.drawn.contains(&(down, i, code)) => {
                self.push_code(out, self.space.acted(code, i, down))
            }
            Command::Look(..) => out.extend_from_slice(b"open"),
            Command::Move(down, i, code) => {
                let next = self.space.acted(code, i, down);
                if next.is_some_and(|next| self.add(next) == "full") {
                    return out.extend_from_slice(b"full");
                }
                self.drawn.insert((down, i, code));
                self.push_code(out, next);
            }
            Command::Weight(code) => push_weight(out, self.space, &self.space.weight(&self.space.digits(code))),
            Command::Length(down, i, code) => {
                let digits = self.space.digits(code);
                let pass = if down { self.space.lowering(&digits) } else { self.space.raising(&digits) };
                push_number(out, u64::from(pass.length.at(i)));
            }
            Command::Find(_) => unreachable!(),
        }
        out.push(b'\n');
    }
}

// ------------------------------------------------------------------------------------------------------------- jobs

struct Job {
    space: Space,
    cells: usize,
    starts: Vec<u64>,
    sessions: Vec<Vec<Command>>,
}

fn fail(what: &str) -> ! {
    eprintln!("yardstick: {what}");
    exit(2)
}

fn number(word: &str) -> usize {
    word.parse().unwrap_or_else(|_| fail("no number"))
}

/// The top word of a shape: its columns from left to right, each from bottom to top; reversed in the other order.
fn top_of(rows: &[usize], reversed: bool) -> Vec<String> {
    let height = |column: usize| rows.iter().filter(|&&row| row > column).count();
    let mut word: Vec<String> = (0..rows[0]).flat_map(|column| (1..=height(column)).rev()).map(|x| x.to_string()).collect();
    if reversed {
        word.reverse();
    }
    word
}

fn command(space: &Space, words: &[&str]) -> Command {
    let at = |k: usize| (number(words[k]) - 1, space.read(&words[k + 1..]));
    match words[0] {
        "add" => Command::Add(space.read(&words[1..])),
        "find" => Command::Find(space.read(&words[1..])),
        "wt" => Command::Weight(space.read(&words[1..])),
        "look" => Command::Look(words[1] == "f", at(2).0, at(2).1),
        "f" | "e" => Command::Move(words[0] == "f", at(1).0, at(1).1),
        "eps" | "phi" => Command::Length(words[0] == "phi", at(1).0, at(1).1),
        _ => fail("a line that this program does not know"),
    }
}

fn read_job(text: &str) -> Job {
    let (mut cartan, mut reversed) = (Cartan { kind: Kind::A, rank: 1 }, false);
    let (mut space, mut cells, mut starts, mut sessions) = (None, 65_536, vec![], vec![]);
    let lines = text.lines().skip(1).map(|line| line.split_ascii_whitespace().collect::<Vec<_>>());
    for words in lines.filter(|words| !words.is_empty() && !words[0].starts_with('#')) {
        match words[0] {
            "type" => {
                let kind = [Kind::A, Kind::B, Kind::C, Kind::D][words[1].as_bytes()[0] as usize - 65];
                cartan = Cartan { kind, rank: number(words[2]) };
            }
            "order" => reversed = words[1] == "kashiwara",
            "shape" => {
                let rows: Vec<usize> = words[1..].iter().map(|row| number(row)).collect();
                let top = top_of(&rows, reversed);
                let made = Space::new(cartan, &vec!["v"; top.len()], reversed);
                starts.push(made.read(&top.iter().map(String::as_str).collect::<Vec<_>>()));
                space = Some(made);
            }
            "space" => space = Some(Space::new(cartan, &words[1..], reversed)),
            "cells" => cells = number(words[1]),
            "session" => sessions.push(vec![]),
            _ => {
                let space = space.as_ref().unwrap_or_else(|| fail("no space"));
                match sessions.last_mut() {
                    None => starts.push(space.read(&words[1..])),
                    Some(session) => session.push(command(space, &words)),
                }
            }
        }
    }
    Job { space: space.unwrap_or_else(|| fail("no space")), cells, starts, sessions }
}

fn answer(job: &Job, statistics: &[String]) -> (Vec<u8>, i32) {
    let space = &job.space;
    let kind = ["A", "B", "C", "D"][space.cartan.kind as usize];
    let mut out = format!("crystal {kind} {}\n", space.cartan.rank).into_bytes();
    let mut roots = job.starts.clone();
    let mut desk = Desk { space, cells: job.cells, there: HashSet::new(), drawn: HashSet::new() };
    job.starts.iter().for_each(|&start| {
        desk.add(start);
    });
    for (k, session) in job.sessions.iter().enumerate() {
        out.extend_from_slice(format!("session {}\n", k + 1).as_bytes());
        session.iter().for_each(|command| desk.push_reply(&mut out, command));
        roots.extend(session.iter().filter_map(|command| match command {
            Command::Add(code) => Some(*code),
            _ => None,
        }));
    }
    let graph = grown(space, &roots, job.cells);
    match &graph {
        Some(graph) => {
            out.extend_from_slice(format!("graph {} {}\n", graph.codes.len(), graph.arrows).as_bytes());
            if statistics != ["sizes"] {
                push_vertices(&mut out, space, graph);
                statistics.iter().for_each(|name| push_statistic(&mut out, space, graph, name));
            }
        }
        None => out.extend_from_slice(b"full\n"),
    }
    out.extend_from_slice(b"end\n");
    (out, if graph.is_some() { 0 } else { 3 })
}

// ------------------------------------------------------------------------------------- the bare steps of the shared table

/// The steps by which one caller writes a known graph into a table of atomic words like the shared one, and no others: a
/// debt owed and a cell taken for each code, on its path of cells; each arrow written once; each vertex paid. Nothing is
/// looked up twice, no operator is computed. The microseconds that they take.
fn bare_steps(codes: &[u64], nexts: &[u32], cells: usize, rank: usize, starts: usize) -> u128 {
    let words: Vec<AtomicU64> = (0..1 + cells + cells * 2 * rank).map(|_| AtomicU64::new(0)).collect();
    let exchange = |word: usize, new: u64| words[word].compare_exchange(0, new, SeqCst, SeqCst).is_ok();
    let mut homes: Vec<usize> = Vec::with_capacity(codes.len());
    let take = |code: u64| {
        words[0].fetch_add(1, SeqCst);
        let mut cell = ((hash(code) >> 32) % cells as u64) as usize;
        while words[1 + cell].load(SeqCst) != 0 || !exchange(1 + cell, code + 1) {
            cell = if cell + 1 == cells { 0 } else { cell + 1 };
        }
        cell
    };
    let begun = Instant::now();
    homes.extend(codes[..starts].iter().map(|&code| take(code)));
    for done in 0..codes.len() {
        let row = 1 + cells + homes[done] * 2 * rank;
        for i in 0..rank {
            let next = nexts[done * rank + i];
            if next == NONE {
                exchange(row + i, 1);
                continue;
            }
            if next as usize == homes.len() {
                homes.push(take(codes[next as usize]));
            }
            let to = homes[next as usize];
            exchange(row + i, to as u64 + 2);
            exchange(1 + cells + to * 2 * rank + rank + i, homes[done] as u64 + 2);
        }
        for i in rank..2 * rank {
            if words[row + i].load(SeqCst) == 0 {
                exchange(row + i, 1);
            }
        }
        words[0].fetch_sub(1, SeqCst);
    }
    begun.elapsed().as_micros()
}

fn main() {
    let statistics: Vec<String> = std::env::args().skip(1).collect();
    let mut text = String::new();
    io::stdin().read_to_string(&mut text).unwrap_or_else(|_| fail("no text"));
    if statistics == ["growth"] {
        let job = read_job(&text);
        println!("{}", if found(&job.space, &job.starts, job.cells).is_some() { "closed" } else { "full" });
        return;
    }
    if statistics == ["steps"] {
        let job = read_job(&text);
        let (codes, nexts) = found(&job.space, &job.starts, job.cells).unwrap_or_else(|| fail("too few cells"));
        let mut tops: Vec<u64> = job.starts.iter().map(|&start| job.space.top(start)).collect();
        tops.sort_unstable();
        tops.dedup();
        println!("{}", bare_steps(&codes, &nexts, job.cells, job.space.cartan.rank, tops.len()));
        return;
    }
    let (out, status) = answer(&read_job(&text), &statistics);
    io::stdout().write_all(&out).unwrap_or_else(|_| exit(5));
    exit(status)
}
