//! Texts to try a checker on, made from a seed: valid models, damaged ones, and no models at all. And right sides to
//! put into them.

pub struct Texts {
    state: u64,
}

struct Head {
    sign: u8,
    ranges: Vec<u8>,
}

impl Texts {
    pub fn new(seed: u64) -> Texts {
        Texts { state: seed }
    }

    /// A number from 0 to n - 1.
    pub fn below(&mut self, n: usize) -> usize {
        self.state = self.state.wrapping_add(0x9e37_79b9_7f4a_7c15);
        let mut z = self.state;
        z = (z ^ (z >> 30)).wrapping_mul(0xbf58_476d_1ce4_e5b9);
        z = (z ^ (z >> 27)).wrapping_mul(0x94d0_49bb_1331_11eb);
        ((z ^ (z >> 31)) % n as u64) as usize
    }

    fn one_in(&mut self, n: usize) -> bool {
        self.below(n) == 0
    }

    fn byte(&mut self, low: usize, high: usize) -> u8 {
        (low + self.below(high - low + 1)) as u8
    }

    pub fn next(&mut self) -> Vec<u8> {
        let text = self.any_text();
        self.in_a_case(text)
    }

    /// The text stays in small letters, or all its letters are made capital, or each by chance.
    fn in_a_case(&mut self, mut text: Vec<u8>) -> Vec<u8> {
        let kind = self.below(4);
        for c in text.iter_mut().filter(|c| (b'a'..=b'f').contains(*c)) {
            if kind == 2 || (kind == 3 && self.one_in(2)) {
                c.make_ascii_uppercase();
            }
        }
        text
    }

    fn any_text(&mut self) -> Vec<u8> {
        match self.below(100) {
            0 => vec![],
            1 => (0..self.below(300)).map(|_| self.byte(0, 255)).collect(),
            2 => (0..self.below(60)).map(|_| b"0123456789abcdef\n"[self.below(17)]).collect(),
            3 => self.long(),
            4..=49 => text_of(&self.model()),
            50..=79 => {
                let mut frames = self.model();
                for _ in 0..=self.below(2) {
                    self.damage_frames(&mut frames);
                }
                text_of(&frames)
            }
            _ => {
                let frames = self.model();
                let mut text = text_of(&frames);
                for _ in 0..=self.below(2) {
                    self.damage_text(&mut text);
                }
                text
            }
        }
    }

    // ---- right sides ----------------------------------------------------------------------------

    /// The bytes of a right side for this equation of the text: mostly a formula that fits, or one that does not.
    pub fn side(&mut self, text: &[u8], equation: usize) -> Vec<u8> {
        let frames = equations_of(text);
        let heads: Vec<Head> = frames.iter().map(|frame| head_of(frame)).collect();
        let mut scope = heads.get(equation).map_or(vec![], |head| head.ranges.clone());
        let kind = if text.len() > 32_000 { self.below(8) } else { self.below(24) };
        match kind {
            0 => vec![],
            1 => (0..self.below(300)).map(|_| self.byte(0, 255)).collect(),
            2..=4 => [[0x12, 0x11].repeat(self.below(135)), vec![0x11]].concat(),
            5 | 6 => [[0x12, 0x11].repeat(123 + self.below(5)), vec![0x11]].concat(), // frames of about 256 bytes
            7..=9 if !frames.is_empty() => body_of(&frames[self.below(frames.len())]),
            10..=12 => body_of(&self.model().into_iter().find(|frame| frame[0] == 1).unwrap_or_default()),
            _ if heads.is_empty() => vec![0x11],
            13 | 14 => {
                let mut bytes = self.formula(&heads, &mut scope, 2, 0);
                let at = self.below(bytes.len());
                bytes[at] = self.byte(0, 0x25);
                bytes
            }
            _ => {
                let depth = 1 + self.below(4);
                self.formula(&heads, &mut scope, depth, 0)
            }
        }
    }

    // ---- valid models, as frames --------------------------------------------------------------

    fn model(&mut self) -> Vec<Vec<u8>> {
        let (count, parameters, range) =
            [(3, 1, 3), (5, 1, 8), (4, 2, 4), (3, 3, 5), (2, 2, 16), (8, 1, 2), (2, 4, 16)][self.below(7)];
        let heads: Vec<Head> = (0..=self.below(count))
            .map(|_| {
                let k = self.below(parameters + 1);
                Head { sign: self.byte(0, 1), ranges: (0..k).map(|_| self.byte(1, range)).collect() }
            })
            .collect();
        let mut frames = Vec::new();
        for (me, head) in heads.iter().enumerate() {
            if self.one_in(8) {
                frames.push(self.note());
            }
            let body = loop {
                let body = match self.below(4) {
                    0 => self.steps(&heads, &head.ranges),
                    1 => self.walk(&heads, me),
                    _ => {
                        let depth = 2 + self.below(4);
                        self.formula(&heads, &mut head.ranges.clone(), depth, 0)
                    }
                };
                if body.len() <= 249 {
                    break body;
                }
            };
            frames.push([vec![1, head.sign, head.ranges.len() as u8], head.ranges.clone(), body].concat());
        }
        let named = self.below(heads.len());
        let arguments = heads[named].ranges.iter().map(|r| self.below(usize::from(*r)) as u8);
        frames.push([2, named as u8].into_iter().chain(arguments).collect());
        while self.one_in(9) {
            frames.push(self.note());
        }
        frames
    }

    fn note(&mut self) -> Vec<u8> {
        let length = if self.one_in(10) { 255 } else { self.below(9) };
        std::iter::once(3).chain((0..length).map(|_| self.byte(0, 255))).collect()
    }

    /// A term of a range that is at most `most`; `scope` has the ranges of the variables in reach.
    fn term(&mut self, scope: &[u8], most: u8, depth: usize) -> Vec<u8> {
        let fitting: Vec<u8> = (0..scope.len() as u8).filter(|i| scope[usize::from(*i)] <= most).collect();
        match self.below(5) {
            0 | 1 if depth > 0 => {
                let range = if self.one_in(3) { self.byte(1, usize::from(most)) } else { most };
                let code = if self.one_in(3) { 0x23 } else { 0x22 };
                [vec![code, range], self.term(scope, 16, depth - 1), self.term(scope, 16, depth - 1)].concat()
            }
            2 | 3 if !fitting.is_empty() => vec![0x21, fitting[self.below(fitting.len())]],
            _ => vec![0x20, self.byte(0, usize::from(most) - 1)],
        }
    }

    fn instance(&mut self, heads: &[Head], scope: &[u8]) -> Vec<u8> {
        let named = self.below(heads.len());
        let mut bytes = vec![0x1a, named as u8, heads[named].ranges.len() as u8];
        for range in &heads[named].ranges {
            bytes.extend(self.term(scope, *range, 1));
        }
        bytes
    }

    fn test(&mut self, scope: &[u8]) -> Vec<u8> {
        [vec![self.byte(0x16, 0x19)], self.term(scope, 16, 1), self.term(scope, 16, 1)].concat()
    }

    fn formula(&mut self, heads: &[Head], scope: &mut Vec<u8>, depth: usize, quantifiers: usize) -> Vec<u8> {
        let join = self.byte(0x12, 0x13);
        match self.below(12) {
            0 => vec![self.byte(0x10, 0x11)],
            1 => self.test(scope),
            2..=4 if depth > 0 => {
                [vec![join], self.test(scope), self.formula(heads, scope, depth - 1, quantifiers)].concat()
            }
            5 | 6 if depth > 0 && quantifiers < 4 => {
                let range = if self.one_in(6) { self.byte(1, 16) } else { self.byte(1, 3) };
                scope.push(range);
                let inner = self.formula(heads, scope, depth - 1, quantifiers + 1);
                scope.pop();
                [vec![self.byte(0x14, 0x15), range], inner].concat()
            }
            7..=10 if depth > 0 => {
                let first = self.formula(heads, scope, depth - 1, quantifiers);
                let second = self.formula(heads, scope, depth - 1, quantifiers);
                [vec![join], first, second].concat()
            }
            _ => self.instance(heads, scope),
        }
    }

    /// Instances joined in a row, with nothing that could make the whole constant.
    fn steps(&mut self, heads: &[Head], scope: &[u8]) -> Vec<u8> {
        let mut bytes = self.instance(heads, scope);
        for _ in 0..self.below(4) {
            bytes = [vec![self.byte(0x12, 0x13)], self.instance(heads, scope), bytes].concat();
        }
        bytes
    }

    /// The equation itself, one parameter put on by one, for each parameter; then another instance.
    fn walk(&mut self, heads: &[Head], me: usize) -> Vec<u8> {
        let ranges = &heads[me].ranges;
        let mut bytes = Vec::new();
        for moved in 0..ranges.len() {
            bytes.extend([self.byte(0x12, 0x13), 0x1a, me as u8, ranges.len() as u8]);
            for i in 0..ranges.len() {
                let stays = [0x21, i as u8];
                let goes_on = [0x22, ranges[i], 0x21, i as u8, 0x20, 1];
                bytes.extend_from_slice(if i == moved { &goes_on } else { &stays });
            }
        }
        bytes.extend(self.instance(heads, ranges));
        bytes
    }

    // ---- damage -------------------------------------------------------------------------------

    fn damage_frames(&mut self, frames: &mut Vec<Vec<u8>>) {
        let at = self.below(frames.len());
        let place = self.below(frames[at].len());
        match self.below(10) {
            0 if frames.len() > 1 => drop(frames.remove(at)),
            1 => frames.insert(at, frames[at].clone()),
            2 => {
                let to = self.below(frames.len());
                frames.swap(at, to);
            }
            3 => drop(frames[at].remove(place)),
            4 => {
                let byte = self.byte(0, 0x24);
                frames[at].insert(place, byte);
            }
            5 => frames[at].truncate(place),
            6 => {
                let length = 250 + self.below(10);
                frames[at].resize(length, 3);
            }
            7 => frames[at][place] = self.byte(0, 255),
            8 if frames[at].len() > 2 && frames[at].len() < 240 => {
                let head = (3 + usize::from(frames[at][2])).min(frames[at].len());
                for _ in 0..3 + self.below(3) {
                    let some = self.byte(0x14, 0x15);
                    frames[at].splice(head..head, [some, 1]); // as many quantifiers more
                }
            }
            _ => frames[at][place] = self.byte(0, 0x24),
        }
        if frames.is_empty() {
            frames.push(vec![3]);
        }
        if frames[at.min(frames.len() - 1)].is_empty() {
            frames.clear();
            frames.push(vec![2]);
        }
    }

    fn damage_text(&mut self, text: &mut Vec<u8>) {
        if text.is_empty() {
            return;
        }
        let at = self.below(text.len());
        match self.below(7) {
            0 => text[at] = self.byte(0, 255),
            1 => text[at] = b"/:@G`g"[self.below(6)], // just beside the digits
            2 => drop(text.remove(at)),
            3 => text.insert(at, b"0123456789abcdefABCDEF\n\r\t "[self.below(26)]),
            4 => text.truncate(at),
            5 => drop(text.pop()),
            _ => text.push(b'\n'),
        }
    }

    /// A model followed by notes up to about the greatest length.
    fn long(&mut self) -> Vec<u8> {
        let mut frames = self.model();
        let most = 32_768 + if self.one_in(2) { 0 } else { self.below(3_000) };
        let mut length: usize = frames.iter().map(|f| 2 * f.len() + 1).sum();
        while length + 3 <= most {
            let bytes = ((most - length - 1) / 2).min(self.below(256) + 1);
            frames.push([vec![3], vec![0xa5; bytes - 1]].concat());
            length += 2 * bytes + 1;
        }
        text_of(&frames)
    }
}

/// The frames of equations that have a whole head; other lines are passed over, damaged ones too.
fn equations_of(text: &[u8]) -> Vec<Vec<u8>> {
    let frame_of = |line: &[u8]| -> Option<Vec<u8>> {
        let digits: Option<Vec<u32>> = line.iter().map(|c| char::from(*c).to_digit(16)).collect();
        Some(digits?.chunks_exact(2).map(|pair| (16 * pair[0] + pair[1]) as u8).collect())
    };
    let whole = |f: &Vec<u8>| f.len() > 3 && f[0] == 1 && f[2] <= 4 && f.len() > 3 + usize::from(f[2]);
    text.split(|c| *c == b'\n').filter_map(frame_of).filter(whole).collect()
}

/// The text with its capital digits made small: it has the same answer.
pub fn small(text: &[u8]) -> Vec<u8> {
    text.iter().map(|c| if (b'A'..=b'F').contains(c) { c.to_ascii_lowercase() } else { *c }).collect()
}

/// The model's text with the right side of this equation in small letters.
pub fn with_small_side(text: &[u8], equation: usize) -> Vec<u8> {
    let head = 2 * (equations_of(text)[equation].len() - side_of(text, equation).len());
    let mut lines: Vec<Vec<u8>> = text.split_inclusive(|c| *c == b'\n').map(<[u8]>::to_vec).collect();
    if let Some(line) = lines.iter_mut().filter(|line| line.starts_with(b"01")).nth(equation) {
        line[head..].make_ascii_lowercase();
    }
    lines.concat()
}

/// The bytes of the right side of this equation of a model's text.
pub fn side_of(text: &[u8], equation: usize) -> Vec<u8> {
    body_of(&equations_of(text)[equation])
}

fn head_of(frame: &[u8]) -> Head {
    let ranges = &frame[3..3 + usize::from(frame[2])];
    Head { sign: frame[1], ranges: ranges.iter().map(|r| (*r).clamp(1, 16)).collect() }
}

fn body_of(frame: &[u8]) -> Vec<u8> {
    frame.get(2).map_or(vec![], |k| frame[3 + usize::from(*k)..].to_vec())
}

fn text_of(frames: &[Vec<u8>]) -> Vec<u8> {
    let mut text = String::new();
    for frame in frames {
        frame.iter().for_each(|b| text.push_str(&format!("{b:02x}")));
        text.push('\n');
    }
    text.into_bytes()
}
