// The work of crates/bench in plain Rust, as one would write it without proofs: to compare answers and speed with.
// Usage: plain FOLDER PART TURNS, where FOLDER has the net texts; it prints the line that `bench` prints for the part.
use std::collections::{HashMap, HashSet};
use std::fs;

#[derive(Clone, Copy, Debug, PartialEq)]
enum Refusal {
    NoMove,
    Uncontrollable,
    TooManyOpen,
    Short,
    NoRoom,
    NotOpen,
    OverLimit,
}

#[derive(Clone, Copy, Debug)]
#[allow(dead_code)]
struct Fault {
    refusal: Refusal,
    transition: usize,
    place: Option<usize>,
}

type Answer = Result<(), Fault>;

fn refused(refusal: Refusal, transition: usize, place: Option<usize>) -> Answer {
    Err(Fault { refusal, transition, place })
}

// ---- the texts
#[derive(Clone, Copy, Debug)]
#[allow(dead_code)]
struct TextFault {
    number: u32,
    line: usize,
    byte: usize,
}

// What a net text says.
struct NetText {
    kind: String,
    places: Vec<(String, u32, u32)>,
    moves: Vec<(String, bool)>,
    arcs: Vec<(usize, usize, u32, u32)>,
}

// What a line of a rules text says.
#[allow(dead_code)]
struct RuleText {
    name: String,
    weights: Vec<i32>,
    bound: i64,
}

// One line that is being read: its number, and where it starts in the text.
struct TextLine<'a> {
    number: usize,
    start: usize,
    fields: Vec<&'a [u8]>,
}

impl<'a> TextLine<'a> {
    fn fault(&self, number: u32, byte: usize) -> TextFault {
        TextFault { number, line: self.number, byte }
    }

    // Where the field `i` starts.
    fn at(&self, i: usize) -> usize {
        self.start + self.fields[..i].iter().map(|f| f.len() + 1).sum::<usize>()
    }

    fn name(&self, i: usize) -> Result<&'a [u8], TextFault> {
        let f = self.fields[i];
        let is_name = f.first().is_some_and(u8::is_ascii_alphabetic)
            && f.len() <= 12
            && f.iter().all(u8::is_ascii_alphanumeric);
        if is_name { Ok(f) } else { Err(self.fault(13, self.at(i))) }
    }

    fn number(&self, i: usize, least: u32, most: u32) -> Result<u32, TextFault> {
        number(self.fields[i])
            .filter(|n| (least..=most).contains(n))
            .ok_or_else(|| self.fault(13, self.at(i)))
    }
}

// A number of at most six digits, without a leading zero.
fn number(f: &[u8]) -> Option<u32> {
    if f.is_empty() || f.len() > 6 || (f[0] == b'0' && f.len() > 1) || !f.iter().all(u8::is_ascii_digit) {
        return None;
    }
    Some(f.iter().fold(0, |n, b| n * 10 + u32::from(b - b'0')))
}

fn check_text(text: &[u8]) -> Result<(), TextFault> {
    if text.is_empty() || text.len() > 16384 || text.last() != Some(&b'\n') {
        return Err(TextFault { number: 10, line: 0, byte: 0 });
    }
    match text.iter().position(|b| !matches!(b, 9 | 10 | 33..=126)) {
        Some(byte) => {
            let line = text[..byte].iter().filter(|b| **b == b'\n').count() + 1;
            Err(TextFault { number: 11, line, byte })
        }
        None => Ok(()),
    }
}

fn lines(text: &[u8]) -> impl Iterator<Item = TextLine<'_>> {
    let mut start = 0;
    text[..text.len() - 1].split(|b| *b == b'\n').enumerate().map(move |(i, line)| {
        let read = TextLine { number: i + 1, start, fields: line.split(|b| *b == b'\t').collect() };
        start += line.len() + 1;
        read
    })
}

fn owned(name: &[u8]) -> String {
    String::from_utf8_lossy(name).into_owned()
}

fn parse_net(text: &[u8]) -> Result<NetText, TextFault> {
    check_text(text)?;
    let mut net = NetText { kind: String::new(), places: vec![], moves: vec![], arcs: vec![] };
    let (mut places, mut moves) = (HashMap::new(), HashMap::new());
    let mut joined = HashSet::new();
    for line in lines(text) {
        let word = line.fields[0];
        match (word, line.fields.len()) {
            (b"plant", 2) if line.number == 1 => {
                if ![&b"net"[..], b"bank", b"line"].contains(&line.fields[1]) {
                    return Err(line.fault(13, line.at(1)));
                }
                net.kind = owned(line.fields[1]);
            }
            (b"place", 4) if line.number > 1 && net.moves.is_empty() && net.arcs.is_empty() => {
                if net.places.len() == 32 {
                    return Err(line.fault(16, line.start));
                }
                let name = line.name(1)?;
                if places.contains_key(name) {
                    return Err(line.fault(14, line.at(1)));
                }
                let tokens = line.number(2, 0, 999)?;
                let limit = line.number(3, 1, 999)?;
                if tokens > limit {
                    return Err(line.fault(13, line.at(2)));
                }
                places.insert(name, net.places.len());
                net.places.push((owned(name), tokens, limit));
            }
            (b"move", 3) if line.number > 1 && net.arcs.is_empty() => {
                if net.moves.len() == 32 {
                    return Err(line.fault(16, line.start));
                }
                let name = line.name(1)?;
                if places.contains_key(name) || moves.contains_key(name) {
                    return Err(line.fault(14, line.at(1)));
                }
                let controllable = match line.fields[2] {
                    b"c" => true,
                    b"u" => false,
                    _ => return Err(line.fault(13, line.at(2))),
                };
                moves.insert(name, net.moves.len());
                net.moves.push((owned(name), controllable));
            }
            (b"arc", 5) if line.number > 1 => {
                let p = *places.get(line.name(1)?).ok_or_else(|| line.fault(15, line.at(1)))?;
                let t = *moves.get(line.name(2)?).ok_or_else(|| line.fault(15, line.at(2)))?;
                let take = line.number(3, 0, 9)?;
                let give = line.number(4, 0, 9)?;
                if take == 0 && give == 0 {
                    return Err(line.fault(13, line.at(3)));
                }
                if net.kind != "net" || !joined.insert((p, t)) {
                    return Err(line.fault(17, line.start));
                }
                net.arcs.push((p, t, take, give));
            }
            _ => return Err(line.fault(12, line.start)),
        }
    }
    let whole = !net.places.is_empty()
        && !net.moves.is_empty()
        && match &net.kind[..] {
            "bank" => {
                net.places.len() % 4 == 0
                    && net.moves.len() == net.places.len()
                    && net.places.iter().all(|(_, _, limit)| *limit == 1)
            }
            "line" => net.moves.len() == net.places.len() + 1,
            _ => true,
        };
    if whole { Ok(net) } else { Err(TextFault { number: 18, line: 0, byte: text.len() }) }
}

// The weights that the sum in the field `i` gives to the places.
fn parse_sum(line: &TextLine, i: usize, places: &HashMap<&[u8], usize>) -> Result<Vec<i32>, TextFault> {
    let sum = line.fields[i];
    let mut weights = vec![0; places.len()];
    let mut at = 0;
    let mut sign = 1;
    if sum.first() == Some(&b'-') {
        (at, sign) = (1, -1);
    }
    loop {
        let part = &sum[at..];
        let digits = part.iter().take_while(|b| b.is_ascii_digit()).count();
        let mut factor = 1;
        let mut name_at = at;
        if digits > 0 {
            factor = number(&part[..digits])
                .filter(|n| (1..=99).contains(n))
                .ok_or_else(|| line.fault(19, line.at(i) + at))? as i32;
            if part.get(digits) != Some(&b'*') {
                return Err(line.fault(19, line.at(i) + at + digits));
            }
            name_at = at + digits + 1;
        }
        let word = sum[name_at..].iter().take_while(|b| b.is_ascii_alphanumeric()).count().min(12);
        let end = name_at + word;
        let name = &sum[name_at..end];
        if !name.first().is_some_and(u8::is_ascii_alphabetic) {
            return Err(line.fault(19, line.at(i) + name_at));
        }
        let p = *places.get(name).ok_or_else(|| line.fault(15, line.at(i) + name_at))?;
        weights[p] += sign * factor;
        if weights[p].abs() > 99 {
            return Err(line.fault(19, line.at(i) + name_at));
        }
        match sum.get(end) {
            None => return Ok(weights),
            Some(b'-') => sign = -1,
            Some(b'+') => sign = 1,
            Some(_) => return Err(line.fault(19, line.at(i) + end)),
        }
        at = end + 1;
    }
}

fn parse_rules(net: &NetText, text: &[u8]) -> Result<Vec<RuleText>, TextFault> {
    check_text(text)?;
    let places: HashMap<&[u8], usize> =
        net.places.iter().enumerate().map(|(p, (name, _, _))| (name.as_bytes(), p)).collect();
    let mut taken: HashSet<&[u8]> = places.keys().copied().collect();
    taken.extend(net.moves.iter().map(|(name, _)| name.as_bytes()));
    let mut rules = vec![];
    for line in lines(text) {
        let word: &[u8] = if line.number == 1 { b"fixed" } else { b"rule" };
        if line.fields[0] != word || line.fields.len() != 4 {
            return Err(line.fault(12, line.start));
        }
        if rules.len() == 13 {
            return Err(line.fault(16, line.start));
        }
        let name = line.name(1)?;
        if !taken.insert(name) {
            return Err(line.fault(14, line.at(1)));
        }
        let weights = parse_sum(&line, 2, &places)?;
        let bound = match line.fields[3] {
            [b'-', digits @ ..] => number(digits).filter(|n| *n > 0).map(|n| -i64::from(n)),
            digits => number(digits).map(i64::from),
        };
        let bound = bound.ok_or_else(|| line.fault(13, line.at(3)))?;
        rules.push(RuleText { name: owned(name), weights, bound });
    }
    Ok(rules)
}

// A net as the plants keep it.
struct Net {
    tokens: Vec<u32>,
    limits: Vec<u32>,
    controllable: Vec<bool>,
    takes: Vec<Vec<u32>>,
    gives: Vec<Vec<u32>>,
}

fn read_net(path: &str) -> Net {
    let read = parse_net(&fs::read(path).expect("a net text")).expect("a proper net");
    let mut takes = vec![vec![0; read.moves.len()]; read.places.len()];
    let mut gives = takes.clone();
    for (p, t, take, give) in read.arcs {
        takes[p][t] = take;
        gives[p][t] = give;
    }
    Net {
        tokens: read.places.iter().map(|(_, tokens, _)| *tokens).collect(),
        limits: read.places.iter().map(|(_, _, limit)| *limit).collect(),
        controllable: read.moves.iter().map(|(_, controllable)| *controllable).collect(),
        takes,
        gives,
    }
}

trait Plant {
    fn places(&self) -> usize;
    fn moves(&self) -> usize;
    fn controllable(&self, t: usize) -> bool;
    fn take(&self, p: usize, t: usize) -> u32;
    fn give(&self, p: usize, t: usize) -> u32;
    fn limit(&self, p: usize) -> u32;
    fn free(&self, p: usize) -> u32;
    fn may_begin(&self, t: usize) -> Answer;
    fn begin(&mut self, t: usize) -> Answer;
    fn back(&mut self, t: usize) -> Answer;
}

// ---- the net table
struct Table {
    net: Net,
}

impl Plant for Table {
    fn places(&self) -> usize {
        self.net.tokens.len()
    }

    fn moves(&self) -> usize {
        self.net.controllable.len()
    }

    fn controllable(&self, t: usize) -> bool {
        self.net.controllable[t]
    }

    fn take(&self, p: usize, t: usize) -> u32 {
        self.net.takes[p][t]
    }

    fn give(&self, p: usize, t: usize) -> u32 {
        self.net.gives[p][t]
    }

    fn limit(&self, p: usize) -> u32 {
        self.net.limits[p]
    }

    fn free(&self, p: usize) -> u32 {
        self.net.tokens[p]
    }

    fn may_begin(&self, t: usize) -> Answer {
        if t >= self.moves() {
            return refused(Refusal::NoMove, t, None);
        }
        for p in 0..self.places() {
            if self.net.tokens[p] < self.net.takes[p][t] {
                return refused(Refusal::Short, t, Some(p));
            }
        }
        Ok(())
    }

    fn begin(&mut self, t: usize) -> Answer {
        self.may_begin(t)?;
        for p in 0..self.places() {
            self.net.tokens[p] -= self.net.takes[p][t];
        }
        Ok(())
    }

    fn back(&mut self, t: usize) -> Answer {
        if t >= self.moves() {
            return refused(Refusal::NoMove, t, None);
        }
        for p in 0..self.places() {
            if self.net.tokens[p] + self.net.takes[p][t] > self.net.limits[p] {
                return refused(Refusal::OverLimit, t, Some(p));
            }
        }
        for p in 0..self.places() {
            self.net.tokens[p] += self.net.takes[p][t];
        }
        Ok(())
    }
}

// ---- the machine bank
struct Bank {
    count: usize,
    tokens: u32,
}

impl Plant for Bank {
    fn places(&self) -> usize {
        self.count
    }

    fn moves(&self) -> usize {
        self.count
    }

    fn controllable(&self, t: usize) -> bool {
        t < self.count
    }

    fn take(&self, p: usize, t: usize) -> u32 {
        u32::from(p == t)
    }

    fn give(&self, p: usize, t: usize) -> u32 {
        u32::from(p == t / 4 * 4 + (t + 1) % 4)
    }

    fn limit(&self, _p: usize) -> u32 {
        1
    }

    fn free(&self, p: usize) -> u32 {
        self.tokens >> p & 1
    }

    fn may_begin(&self, t: usize) -> Answer {
        if t >= self.count {
            return refused(Refusal::NoMove, t, None);
        }
        if self.tokens >> t & 1 == 0 {
            return refused(Refusal::Short, t, Some(t));
        }
        Ok(())
    }

    fn begin(&mut self, t: usize) -> Answer {
        self.may_begin(t)?;
        self.tokens &= !(1 << t);
        Ok(())
    }

    fn back(&mut self, t: usize) -> Answer {
        if t >= self.count {
            return refused(Refusal::NoMove, t, None);
        }
        if self.tokens >> t & 1 == 1 {
            return refused(Refusal::OverLimit, t, Some(t));
        }
        self.tokens |= 1 << t;
        Ok(())
    }
}

// ---- the buffer line
struct Line {
    tokens: Vec<u32>,
    limits: Vec<u32>,
}

impl Plant for Line {
    fn places(&self) -> usize {
        self.tokens.len()
    }

    fn moves(&self) -> usize {
        self.tokens.len() + 1
    }

    fn controllable(&self, t: usize) -> bool {
        t < self.moves()
    }

    fn take(&self, p: usize, t: usize) -> u32 {
        u32::from(p + 1 == t)
    }

    fn give(&self, p: usize, t: usize) -> u32 {
        u32::from(p == t)
    }

    fn limit(&self, p: usize) -> u32 {
        self.limits[p]
    }

    fn free(&self, p: usize) -> u32 {
        self.tokens[p]
    }

    fn may_begin(&self, t: usize) -> Answer {
        if t >= self.moves() {
            return refused(Refusal::NoMove, t, None);
        }
        if t > 0 && self.tokens[t - 1] < 1 {
            return refused(Refusal::Short, t, Some(t - 1));
        }
        Ok(())
    }

    fn begin(&mut self, t: usize) -> Answer {
        self.may_begin(t)?;
        if t > 0 {
            self.tokens[t - 1] -= 1;
        }
        Ok(())
    }

    fn back(&mut self, t: usize) -> Answer {
        if t >= self.moves() {
            return refused(Refusal::NoMove, t, None);
        }
        if t > 0 {
            if self.tokens[t - 1] >= self.limits[t - 1] {
                return refused(Refusal::OverLimit, t, Some(t - 1));
            }
            self.tokens[t - 1] += 1;
        }
        Ok(())
    }
}

// ---- rows of rules on a plant
const CONTROL_LIMIT: u32 = 2_000_000_000;

struct Row {
    takes: Vec<u32>,
    gives: Vec<u32>,
    free: u32,
}

struct Layer<P> {
    below: P,
    rows: Vec<Row>,
}

impl<P: Plant> Layer<P> {
    // L·m ≤ b for a rule that no uncontrollable move raises.
    fn set(&mut self, weights: &[i64], bound: i64) {
        let mut row = Row { takes: vec![], gives: vec![], free: 0 };
        for t in 0..self.below.moves() {
            let raise: i64 = (0..weights.len())
                .map(|p| weights[p] * (i64::from(self.below.give(p, t)) - i64::from(self.below.take(p, t))))
                .sum();
            row.takes.push(raise.max(0) as u32);
            row.gives.push((-raise).max(0) as u32);
        }
        let held: i64 = (0..weights.len()).map(|p| weights[p] * i64::from(self.below.free(p))).sum();
        row.free = (bound - held) as u32;
        self.rows.push(row);
    }
}

impl<P: Plant> Plant for Layer<P> {
    fn places(&self) -> usize {
        self.below.places() + self.rows.len()
    }

    fn moves(&self) -> usize {
        self.below.moves()
    }

    fn controllable(&self, t: usize) -> bool {
        self.below.controllable(t)
    }

    fn take(&self, p: usize, t: usize) -> u32 {
        let first = self.below.places();
        if p < first { self.below.take(p, t) } else { self.rows[p - first].takes[t] }
    }

    fn give(&self, p: usize, t: usize) -> u32 {
        let first = self.below.places();
        if p < first { self.below.give(p, t) } else { self.rows[p - first].gives[t] }
    }

    fn limit(&self, p: usize) -> u32 {
        if p < self.below.places() { self.below.limit(p) } else { CONTROL_LIMIT }
    }

    fn free(&self, p: usize) -> u32 {
        let first = self.below.places();
        if p < first { self.below.free(p) } else { self.rows[p - first].free }
    }

    fn may_begin(&self, t: usize) -> Answer {
        self.below.may_begin(t)?;
        for (r, row) in self.rows.iter().enumerate() {
            if row.free < row.takes[t] {
                return refused(Refusal::Short, t, Some(self.below.places() + r));
            }
        }
        Ok(())
    }

    fn begin(&mut self, t: usize) -> Answer {
        self.may_begin(t)?;
        self.below.begin(t)?;
        for row in &mut self.rows {
            row.free -= row.takes[t];
        }
        Ok(())
    }

    fn back(&mut self, t: usize) -> Answer {
        for (r, row) in self.rows.iter().enumerate() {
            if row.free + row.takes[t] > CONTROL_LIMIT {
                return refused(Refusal::OverLimit, t, Some(self.below.places() + r));
            }
        }
        self.below.back(t)?;
        for row in &mut self.rows {
            row.free += row.takes[t];
        }
        Ok(())
    }
}

// ---- the ledger
struct Ledger<P> {
    pile: P,
    open: Vec<u32>,
    reserved: Vec<u32>,
    total: u32,
}

impl<P: Plant> Ledger<P> {
    fn new(pile: P) -> Self {
        let (open, reserved) = (vec![0; pile.moves()], vec![0; pile.places()]);
        Ledger { pile, open, reserved, total: 0 }
    }

    fn grant(&mut self, t: usize) -> Answer {
        if t >= self.pile.moves() {
            return refused(Refusal::NoMove, t, None);
        }
        if !self.pile.controllable(t) {
            return refused(Refusal::Uncontrollable, t, None);
        }
        if self.total >= 200 {
            return refused(Refusal::TooManyOpen, t, None);
        }
        self.pile.may_begin(t)?;
        for p in 0..self.pile.places() {
            let take = self.pile.take(p, t);
            let most = take.max(self.pile.give(p, t));
            if self.pile.limit(p) + take < self.pile.free(p) + most + self.reserved[p] {
                return refused(Refusal::NoRoom, t, Some(p));
            }
        }
        self.pile.begin(t)?;
        for p in 0..self.pile.places() {
            self.reserved[p] += self.pile.take(p, t).max(self.pile.give(p, t));
        }
        self.open[t] += 1;
        self.total += 1;
        Ok(())
    }

    fn cancel(&mut self, t: usize) -> Answer {
        if t >= self.pile.moves() {
            return refused(Refusal::NoMove, t, None);
        }
        if self.open[t] == 0 {
            return refused(Refusal::NotOpen, t, None);
        }
        self.pile.back(t)?;
        for p in 0..self.pile.places() {
            self.reserved[p] -= self.pile.take(p, t).max(self.pile.give(p, t));
        }
        self.open[t] -= 1;
        self.total -= 1;
        Ok(())
    }
}

// ---- the parts
const MOVES: u32 = 32;

fn fire(name: &str, mut plant: impl Plant, turns: u32) {
    let mut passed: u64 = 0;
    for turn in 0..turns {
        let t = (turn % MOVES) as usize;
        passed += u64::from(plant.begin(t).is_ok());
        passed += u64::from(plant.back(t).is_ok());
    }
    println!("{name}: {passed} calls passed in {turns} turns; free at place 0: {}", plant.free(0));
}

fn grants(name: &str, table: Table, open: usize, turns: u32) {
    let row = |r: usize| -> Vec<i64> { (0..32).map(|p| i64::from(p % 2 == r % 2)).collect() };
    let mut monitor = Layer { below: table, rows: vec![] };
    monitor.set(&row(0), 999_999);
    let mut board = Layer { below: monitor, rows: vec![] };
    for r in 0..12 {
        board.set(&row(r), 999_999);
    }
    let mut ledger = Ledger::new(board);
    let mut granted = 0;
    for t in 0..open {
        granted += u32::from(ledger.grant(t).is_ok());
    }
    let mut passed: u64 = 0;
    for turn in 0..turns {
        let t = (turn % MOVES) as usize;
        passed += u64::from(ledger.grant(t).is_ok());
        passed += u64::from(ledger.cancel(t).is_ok());
    }
    println!("{name}: {granted} open, {passed} calls passed in {turns} turns; free at place 0: {}", ledger.pile.free(0));
}

fn main() {
    let args: Vec<String> = std::env::args().collect();
    let (folder, part, turns) = (&args[1], &args[2], args[3].parse::<u32>().expect("a number of turns"));
    let readings = (turns / 1000).max(1);
    let table = || Table { net: read_net(&format!("{folder}/table.net")) };
    match part.as_str() {
        "table" => fire(part, table(), turns),
        "bank" => {
            let net = read_net(&format!("{folder}/bank.net"));
            let tokens = net.tokens.iter().enumerate().map(|(p, n)| n << p).sum();
            fire(part, Bank { count: net.tokens.len(), tokens }, turns);
        }
        "line" => {
            let net = read_net(&format!("{folder}/line.net"));
            fire(part, Line { tokens: net.tokens, limits: net.limits }, turns);
        }
        "ledger" => grants(part, table(), 0, turns),
        "open" => grants(part, table(), 10, turns),
        "net" => {
            let text = fs::read(format!("{folder}/largest.net")).expect("a net text");
            let arcs = (0..readings).map(|_| parse_net(&text).map_or(0, |net| net.arcs.len())).min().unwrap_or(0);
            println!("net: {arcs} arcs in each of {readings} readings");
        }
        "rules" => {
            let net = parse_net(&fs::read(format!("{folder}/largest.net")).expect("a net text")).expect("a proper net");
            let text = fs::read(format!("{folder}/largest.rules")).expect("a rules text");
            let rules = (0..readings).map(|_| parse_rules(&net, &text).map_or(0, |rules| rules.len())).min().unwrap_or(0);
            println!("rules: {rules} rules in each of {readings} readings");
        }
        _ => println!("{part}: no such part"),
    }
}
