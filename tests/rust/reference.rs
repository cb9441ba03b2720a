//! A plain checker of models, to compare the proved one with. It shares no code with it, and it
//! solves in another way: the simplified right sides become a game on a graph, in which one player
//! wants truth and moves at `or`, the other wants falsehood and moves at `and`. A play that goes on
//! for ever is decided by the first equation that it passes for ever: greatest gives it to truth,
//! least to falsehood. An instance is true exactly when truth can win from it.

use std::collections::HashMap;

const LONGEST: usize = 32_768;
const ROOM: usize = 512;

// ---- formulas ---------------------------------------------------------------------------------

enum Term {
    Number(u8),
    Variable(usize),
    Sum(u8, Box<[Term; 2]>),
    Difference(u8, Box<[Term; 2]>),
}

/// In `Join` and `Quantifier` the flag says `and` (for all) or `or` (for some).
enum Formula {
    Constant(bool),
    Join(bool, Box<[Formula; 2]>),
    Quantifier(bool, u8, Box<Formula>),
    Test(u8, Term, Term),
    Instance(usize, Vec<Term>),
}

struct Equation {
    greatest: bool,
    ranges: Vec<u8>,
    body: Formula,
    line: usize,
}

struct Model {
    equations: Vec<Equation>,
    start: (usize, Vec<u8>),
}

/// The number of a refusal and its line.
pub type Refusal = (u8, usize);

// ---- reading: each reader takes bytes from the front and gives None where the rules are broken --

fn byte(from: &mut &[u8]) -> Option<u8> {
    let (first, rest) = from.split_first()?;
    *from = rest;
    Some(*first)
}

fn within(from: &mut &[u8], low: u8, high: u8) -> Option<u8> {
    byte(from).filter(|b| (low..=high).contains(b))
}

fn two_terms(from: &mut &[u8], variables: usize) -> Option<[Term; 2]> {
    Some([term(from, variables)?, term(from, variables)?])
}

fn term(from: &mut &[u8], variables: usize) -> Option<Term> {
    match byte(from)? {
        0x20 => Some(Term::Number(within(from, 0, 15)?)),
        0x21 => byte(from).map(usize::from).filter(|i| *i < variables).map(Term::Variable),
        0x22 => Some(Term::Sum(within(from, 1, 16)?, Box::new(two_terms(from, variables)?))),
        0x23 => Some(Term::Difference(within(from, 1, 16)?, Box::new(two_terms(from, variables)?))),
        _ => None,
    }
}

fn formula(from: &mut &[u8], variables: usize, quantifiers: usize) -> Option<Formula> {
    let code = byte(from)?;
    match code {
        0x10 | 0x11 => Some(Formula::Constant(code == 0x11)),
        0x12 | 0x13 => {
            let first = formula(from, variables, quantifiers)?;
            let second = formula(from, variables, quantifiers)?;
            Some(Formula::Join(code == 0x12, Box::new([first, second])))
        }
        0x14 | 0x15 => {
            let range = within(from, 1, 16)?;
            if quantifiers == 4 {
                return None;
            }
            let inner = formula(from, variables + 1, quantifiers + 1)?;
            Some(Formula::Quantifier(code == 0x14, range, Box::new(inner)))
        }
        0x16..=0x19 => {
            let [a, b] = two_terms(from, variables)?;
            Some(Formula::Test(code, a, b))
        }
        0x1a => {
            let equation = usize::from(byte(from)?);
            let n = within(from, 0, 4)?;
            let arguments: Option<Vec<Term>> = (0..n).map(|_| term(from, variables)).collect();
            Some(Formula::Instance(equation, arguments?))
        }
        _ => None,
    }
}

fn worth(character: u8) -> Option<u8> {
    match character {
        b'0'..=b'9' => Some(character - b'0'),
        b'a'..=b'f' => Some(character - b'a' + 10),
        b'A'..=b'F' => Some(character - b'A' + 10),
        _ => None,
    }
}

/// The bytes of one line, or 2 or 3.
fn frame(line: &[u8], ended: bool) -> Result<Vec<u8>, u8> {
    let digits: Vec<u8> = line.iter().map(|c| worth(*c)).collect::<Option<_>>().ok_or(2)?;
    if digits.is_empty() || digits.len() % 2 == 1 || digits.len() > 512 || !ended {
        return Err(3);
    }
    Ok(digits.chunks(2).map(|pair| 16 * pair[0] + pair[1]).collect())
}

fn head(from: &mut &[u8]) -> Option<(bool, Vec<u8>)> {
    let sign = within(from, 0, 1)?;
    let k = within(from, 0, 4)?;
    let ranges: Option<Vec<u8>> = (0..k).map(|_| within(from, 1, 16)).collect();
    Some((sign == 1, ranges?))
}

fn equation(mut rest: &[u8], line: usize) -> Result<Equation, u8> {
    let (greatest, ranges) = head(&mut rest).ok_or(5)?;
    let body = formula(&mut rest, ranges.len(), 0).ok_or(6)?;
    if !rest.is_empty() {
        return Err(6);
    }
    Ok(Equation { greatest, ranges, body, line })
}

/// A start as it was read: its line, its equation, its arguments.
type Start = (usize, usize, Vec<u8>);

fn read_frame(frame: &[u8], line: usize, equations: &mut Vec<Equation>, start: &mut Option<Start>) -> Result<(), u8> {
    match frame[0] {
        1 if start.is_none() && equations.len() < 8 => equations.push(equation(&frame[1..], line)?),
        2 if start.is_none() && !equations.is_empty() => {
            let (named, arguments) = frame[1..].split_first().ok_or(5)?;
            *start = Some((line, usize::from(*named), arguments.to_vec()));
        }
        3 => {}
        _ => return Err(4),
    }
    Ok(())
}

fn read(text: &[u8]) -> Result<Model, Refusal> {
    if text.len() > LONGEST {
        return Err((1, 0));
    }
    let (mut equations, mut start, mut line) = (Vec::new(), None, 0);
    for piece in text.split_inclusive(|c| *c == b'\n') {
        line += 1;
        let content = piece.strip_suffix(b"\n");
        frame(content.unwrap_or(piece), content.is_some())
            .and_then(|bytes| read_frame(&bytes, line, &mut equations, &mut start))
            .map_err(|number| (number, line))?;
    }
    let (start_line, named, arguments) = start.ok_or((4, line + 1))?;
    for e in &equations {
        if !fits(&e.body, &mut e.ranges.clone(), &equations) {
            return Err((7, e.line));
        }
    }
    match equations.get(named) {
        Some(e) if e.ranges.len() == arguments.len() && arguments.iter().zip(&e.ranges).all(|(a, r)| a < r) => {}
        _ => return Err((8, start_line)),
    }
    Ok(Model { equations, start: (named, arguments) })
}

fn range_of(t: &Term, ranges: &[u8]) -> u8 {
    match t {
        Term::Number(v) => v + 1,
        Term::Variable(i) => ranges[*i],
        Term::Sum(r, _) | Term::Difference(r, _) => *r,
    }
}

/// Whether every instance in the formula names an equation and fits it.
fn fits(f: &Formula, ranges: &mut Vec<u8>, equations: &[Equation]) -> bool {
    match f {
        Formula::Constant(_) | Formula::Test(..) => true,
        Formula::Join(_, parts) => parts.iter().all(|part| fits(part, ranges, equations)),
        Formula::Quantifier(_, range, inner) => {
            ranges.push(*range);
            let good = fits(inner, ranges, equations);
            ranges.pop();
            good
        }
        Formula::Instance(e, arguments) => equations.get(*e).is_some_and(|named| {
            let small = |(a, r): (&Term, &u8)| range_of(a, ranges) <= *r;
            named.ranges.len() == arguments.len() && arguments.iter().zip(&named.ranges).all(small)
        }),
    }
}

// ---- replacing a right side ---------------------------------------------------------------------

/// The text with the right side of one equation replaced by these bytes, or the refusal. The lines that are not
/// that equation's are kept as they are; `room` is the length of the buffer that the text is for.
pub fn replace(text: &[u8], equation: usize, side: &[u8], room: usize) -> Result<Vec<u8>, Refusal> {
    read(text)?;
    let mut lines: Vec<Vec<u8>> = text.split_inclusive(|c| *c == b'\n').map(<[u8]>::to_vec).collect();
    let line = lines.iter_mut().filter(|line| line.starts_with(b"01")).nth(equation).ok_or((19, 0))?;
    let parameters = worth(line[5]).map_or(0, usize::from);
    line.truncate(2 * (3 + parameters));
    side.iter().for_each(|b| line.extend(format!("{b:02x}").bytes()));
    line.push(b'\n');
    let result = lines.concat();
    read(&result)?;
    if room < result.len() {
        return Err((10, 0));
    }
    Ok(result)
}

// ---- instantiating ------------------------------------------------------------------------------

type Instance = (usize, Vec<u8>);

/// A right side without data: a constant, an instance, or an `and` (true) or `or` of open parts.
enum Simple {
    Constant(bool),
    Instance(Instance),
    Join(bool, Vec<Simple>),
}

fn value(t: &Term, values: &[u8]) -> u8 {
    match t {
        Term::Number(v) => *v,
        Term::Variable(i) => values[*i],
        Term::Sum(r, ab) => (value(&ab[0], values) + value(&ab[1], values)) % r,
        Term::Difference(r, ab) => {
            let less = value(&ab[0], values) as i8 - value(&ab[1], values) as i8; // from -15 to 15
            less.rem_euclid(*r as i8) as u8
        }
    }
}

fn test(code: u8, a: u8, b: u8) -> bool {
    match code {
        0x16 => a == b,
        0x17 => a < b,
        0x18 => a != b,
        _ => a >= b,
    }
}

/// The deciding constant makes the whole of it; any other constant is dropped.
fn join(all: bool, parts: Vec<Simple>) -> Simple {
    let mut open = Vec::new();
    for part in parts {
        match part {
            Simple::Constant(c) if c != all => return Simple::Constant(c),
            Simple::Constant(_) => {}
            part => open.push(part),
        }
    }
    match open.len() {
        0 => Simple::Constant(all),
        1 => open.remove(0),
        _ => Simple::Join(all, open),
    }
}

fn simplify(f: &Formula, values: &mut Vec<u8>) -> Simple {
    match f {
        Formula::Constant(c) => Simple::Constant(*c),
        Formula::Test(code, a, b) => Simple::Constant(test(*code, value(a, values), value(b, values))),
        Formula::Instance(e, arguments) => Simple::Instance((*e, arguments.iter().map(|a| value(a, values)).collect())),
        Formula::Join(all, parts) => join(*all, parts.iter().map(|part| simplify(part, values)).collect()),
        Formula::Quantifier(all, range, inner) => {
            let mut parts = Vec::new();
            for v in 0..*range {
                values.push(v);
                parts.push(simplify(inner, values));
                values.pop();
            }
            join(*all, parts)
        }
    }
}

fn left_to_right(right: &Simple, meet: &mut impl FnMut(&Instance)) {
    match right {
        Simple::Constant(_) => {}
        Simple::Instance(instance) => meet(instance),
        Simple::Join(_, parts) => parts.iter().for_each(|part| left_to_right(part, meet)),
    }
}

/// The reached instances in order of finding, with their simplified right sides; where there are more than room, it
/// stops at the first one too many.
fn reach(model: &Model, room: usize) -> (Vec<Instance>, Vec<Simple>) {
    let (mut found, mut rights) = (vec![model.start.clone()], Vec::new());
    while rights.len() < found.len() && found.len() <= room {
        let (e, arguments) = found[rights.len()].clone();
        let right = simplify(&model.equations[e].body, &mut arguments.clone());
        left_to_right(&right, &mut |instance| {
            if found.len() <= room && !found.contains(instance) {
                found.push(instance.clone());
            }
        });
        rights.push(right);
    }
    (found, rights)
}

// ---- the game -----------------------------------------------------------------------------------

/// Place j is reached instance j; the places after them are formulas, equal ones at one place.
struct Game {
    all: Vec<bool>,
    rank: Vec<usize>,
    next: Vec<Vec<usize>>,
    before: Vec<Vec<usize>>,
}

impl Game {
    fn place(&mut self, all: bool, rank: usize, next: Vec<usize>) -> usize {
        self.all.push(all);
        self.rank.push(rank);
        self.next.push(next);
        self.all.len() - 1
    }

    fn of(model: &Model, found: &[Instance], rights: &[Simple]) -> Game {
        let numbers: HashMap<&Instance, usize> = found.iter().enumerate().map(|(j, i)| (i, j)).collect();
        let mut ranks = Vec::new(); // even for greatest, odd for least, one more at each change of sign
        for e in &model.equations {
            let last: usize = ranks.last().copied().unwrap_or(0);
            ranks.push(last + usize::from((last % 2 == 0) != e.greatest));
        }
        let low = ranks[ranks.len() - 1] / 2 * 2 + 2; // below every equation, and even
        let mut game = Game { all: vec![], rank: vec![], next: vec![], before: vec![] };
        for (e, _) in found {
            game.place(true, ranks[*e], vec![]);
        }
        let yes = game.place(true, low, vec![found.len()]);
        let no = game.place(true, low + 1, vec![found.len() + 1]);
        let mut known = HashMap::new();
        for (j, right) in rights.iter().enumerate() {
            let to = game.formula(right, &numbers, low, [no, yes], &mut known);
            game.next[j] = vec![to];
        }
        game.before = vec![vec![]; game.next.len()];
        for v in 0..game.next.len() {
            for w in game.next[v].clone() {
                game.before[w].push(v);
            }
        }
        game
    }

    fn formula(
        &mut self,
        right: &Simple,
        numbers: &HashMap<&Instance, usize>,
        low: usize,
        constants: [usize; 2],
        known: &mut HashMap<(bool, Vec<usize>), usize>,
    ) -> usize {
        match right {
            Simple::Constant(c) => constants[usize::from(*c)],
            Simple::Instance(instance) => numbers[instance],
            Simple::Join(all, parts) => {
                let mut to: Vec<usize> =
                    parts.iter().map(|part| self.formula(part, numbers, low, constants, known)).collect();
                to.sort_unstable();
                to.dedup();
                let key = (*all, to.clone());
                let place = known.get(&key).copied().unwrap_or_else(|| self.place(*all, low, to));
                known.insert(key, place);
                place
            }
        }
    }

    /// The places from which `player` (true: truth) can force the play into `aim`, within `field`.
    fn attract(&self, field: &[bool], player: bool, aim: Vec<usize>) -> Vec<bool> {
        let mut near = vec![false; field.len()];
        let mut work = aim;
        work.iter().for_each(|v| near[*v] = true);
        while let Some(w) = work.pop() {
            for v in self.before[w].iter().copied().filter(|v| field[*v]) {
                let own = self.all[v] != player;
                if !near[v] && (own || self.next[v].iter().all(|x| !field[*x] || near[*x])) {
                    near[v] = true;
                    work.push(v);
                }
            }
        }
        near
    }

    /// For each place of the field, whether truth wins from it (by Zielonka's recursion on ranks).
    fn truth(&self, mut field: Vec<bool>) -> Vec<bool> {
        let places = |set: &[bool]| -> Vec<usize> { (0..set.len()).filter(|v| set[*v]).collect() };
        let mut wins = vec![false; field.len()];
        while let Some(rank) = places(&field).iter().map(|v| self.rank[*v]).min() {
            let player = rank % 2 == 0;
            let first = places(&field).into_iter().filter(|v| self.rank[*v] == rank).collect();
            let near = self.attract(&field, player, first);
            let rest: Vec<bool> = field.iter().zip(&near).map(|(f, n)| *f && !n).collect();
            let inner = self.truth(rest.clone());
            let lost: Vec<usize> = places(&rest).into_iter().filter(|v| inner[*v] != player).collect();
            let all_won = lost.is_empty();
            let decided = if all_won { field.clone() } else { self.attract(&field, !player, lost) };
            for v in places(&decided) {
                wins[v] = player == all_won;
                field[v] = false;
            }
        }
        wins
    }
}

// ---- answers ------------------------------------------------------------------------------------

/// The reached instances with their values, or the refusal.
pub fn check(text: &[u8]) -> Result<Vec<(Instance, bool)>, Refusal> {
    let model = read(text)?;
    let (found, rights) = reach(&model, ROOM);
    if found.len() > ROOM {
        return Err((9, 0));
    }
    let game = Game::of(&model, &found, &rights);
    let truth = game.truth(vec![true; game.next.len()]);
    Ok(found.into_iter().zip(truth).collect())
}

/// What the checking program prints for this text.
pub fn print(text: &[u8]) -> Vec<u8> {
    lines(check(text))
}

fn lines(answer: Result<Vec<(Instance, bool)>, Refusal>) -> Vec<u8> {
    let two = |n: usize| [(n / 256) as u8, (n % 256) as u8];
    let mut frames: Vec<Vec<u8>> = Vec::new();
    match answer {
        Err((number, line)) => frames.push([vec![6, number], two(line).to_vec()].concat()),
        Ok(list) => {
            for ((e, arguments), holds) in &list {
                frames.push([vec![4, *e as u8], arguments.clone(), vec![u8::from(*holds)]].concat());
            }
            let trues = list.iter().filter(|(_, holds)| *holds).count();
            frames.push([vec![5, u8::from(list[0].1)], two(list.len()).to_vec(), two(trues).to_vec()].concat());
        }
    }
    let mut out = String::new();
    for frame in frames {
        frame.iter().for_each(|b| out.push_str(&format!("{b:02x}")));
        out.push('\n');
    }
    out.into_bytes()
}

// ---- finding and solving apart ------------------------------------------------------------------

/// Equation, first, second, third and fourth argument, absent ones 0.
fn word((e, arguments): &Instance) -> u32 {
    let places = arguments.iter().zip([4_096, 256, 16, 1]);
    places.fold(65_536 * *e as u32, |word, (argument, place)| word + place * u32::from(*argument))
}

/// The words that finding writes into a table of so many, and what it refuses by.
pub fn find(text: &[u8], words: usize) -> (Vec<u32>, Option<Refusal>) {
    match read(text) {
        Err(refusal) => (vec![], Some(refusal)),
        Ok(model) => {
            let room = words.min(ROOM);
            let (found, _) = reach(&model, room);
            let over = if found.len() > room { Some((9, 0)) } else { None };
            (found.iter().take(room).map(word).collect(), over)
        }
    }
}

/// What solving prints for this text with this list: what checking prints, or the line of 11.
pub fn solve(text: &[u8], list: &[u32]) -> Vec<u8> {
    match find(text, ROOM) {
        (its, None) if its == list => print(text),
        (_, None | Some((9, _))) => lines(Err((11, 0))),
        (_, Some(refusal)) => lines(Err(refusal)),
    }
}
