//! Finding and solving apart from each other, as caller.rs calls them for each text: tables of several lengths, lists
//! that are right and lists that are damaged in one way each, and one after the other.

use crate::texts::{small, Texts};
use crate::{check, fail, reference, ROOM};
use std::ptr::null_mut;

/// No list has more words.
const LIST: usize = 512;

/// So many words more are none for who drops the high bits of a length.
const WRAP: usize = 65_536;

/// What solving writes where the list is not the text's.
const ANOTHER: &[u8] = b"060b0000\n";

extern "C" {
    fn devashtor_find(text: *const u8, text_length: usize, table: *mut u32, words: usize) -> u64;
    fn devashtor_solve(
        text: *const u8,
        text_length: usize,
        list: *const u32,
        words: usize,
        out: *mut u8,
        out_length: usize,
    ) -> usize;
    // The system's, for memory that may only be read, or not be touched.
    fn mmap(at: *mut u8, length: usize, may: i32, how: i32, file: i32, offset: i64) -> *mut u8;
    fn mprotect(at: *mut u8, length: usize, may: i32) -> i32;
}

fn find(text: &[u8], table: &mut [u32]) -> u64 {
    unsafe { devashtor_find(text.as_ptr(), text.len(), table.as_mut_ptr(), table.len()) }
}

fn solve(text: &[u8], list: &[u32], out: &mut [u8]) -> usize {
    unsafe { devashtor_solve(text.as_ptr(), text.len(), list.as_ptr(), list.len(), out.as_mut_ptr(), out.len()) }
}

/// A list that ends where memory may not be touched, and that may only be read.
struct Lent {
    area: *mut u8,
}

impl Lent {
    const BYTES: usize = 4 * (WRAP + 4 * LIST);
    const FENCE: usize = 65_536;

    fn new() -> Lent {
        const PRIVATE_AND_EMPTY: i32 = 0x22;
        let area = unsafe { mmap(null_mut(), Lent::BYTES + Lent::FENCE, 3, PRIVATE_AND_EMPTY, -1, 0) };
        assert!(area as isize != -1, "no memory");
        assert!(unsafe { mprotect(area.add(Lent::BYTES), Lent::FENCE, 0) } == 0, "no fence");
        Lent { area }
    }

    fn may(&self, may: i32) {
        assert!(unsafe { mprotect(self.area, Lent::BYTES, may) } == 0, "not protected");
    }

    fn put(&mut self, list: &[u32]) -> &[u32] {
        self.may(3);
        let lent = unsafe {
            let at = self.area.add(Lent::BYTES - 4 * list.len()).cast::<u32>();
            std::slice::from_raw_parts_mut(at, list.len())
        };
        lent.copy_from_slice(list);
        self.may(1);
        lent
    }
}

// ---- damaged lists --------------------------------------------------------------------------------

const KINDS: [&str; 15] = [
    "cut by one",
    "by more",
    "a word dropped",
    "a word repeated behind",
    "a 0 behind",
    "any word behind",
    "the next behind",
    "two exchanged",
    "a bit",
    "another equation",
    "filled to 513",
    "by 65536 longer",
    "empty",
    "of another model",
    "random",
];

fn any_word(texts: &mut Texts) -> u32 {
    let width = [4, 16, 19, 32][texts.below(4)];
    texts.below(1 << width) as u32
}

/// The right list with one damage; where it can have none of this kind it comes out as it is.
fn damaged(texts: &mut Texts, kind: usize, right: &[u32], others: &[Vec<u32>]) -> Vec<u32> {
    let (mut list, n) = (right.to_vec(), right.len());
    let at = [0, n - 1, texts.below(n), texts.below(n)][texts.below(4)];
    match KINDS[kind] {
        "cut by one" => list.truncate(n - 1),
        "by more" if n > 1 => list.truncate(texts.below(n - 1)),
        "a word dropped" if at + 1 < n => drop(list.remove(at)),
        "a word repeated behind" => list.push(right[at]),
        "a 0 behind" => list.push(0),
        "any word behind" => list.push(any_word(texts)),
        "the next behind" => list.push(right[n - 1] + (1 << (4 * texts.below(5)))),
        "two exchanged" => list.swap(at, texts.below(n)),
        "a bit" => list[at] ^= 1 << texts.below(32),
        "another equation" => list[at] = (texts.below(9) as u32) << 16 | (right[at] & 0xffff),
        "filled to 513" => {
            let word = [0, right[at], any_word(texts)][texts.below(3)];
            list.resize(LIST + 1, word);
        }
        "by 65536 longer" => list.resize(WRAP + n, right[at]),
        "empty" => list.clear(),
        "of another model" if !others.is_empty() => {
            let same: Vec<&Vec<u32>> = others.iter().filter(|other| other.len() == n && *other != right).collect();
            list = match same.len() {
                0 => others[texts.below(others.len())].clone(),
                many => same[texts.below(many)].clone(),
            };
        }
        "random" => {
            let many = [n, texts.below(8), texts.below(600)][texts.below(3)];
            list = (0..many).map(|_| any_word(texts)).collect();
        }
        _ => {}
    }
    list
}

/// A model in which equation 1 asks for all instances of equation 0, 256 for each value of its third parameter, but
/// for the last of all where one is left out; and its list, by how it is made.
fn large_model(last: u8, one_out: bool) -> (Vec<u8>, Vec<u32>) {
    let but = if one_out { format!("1312162100200f12162101200f16210220{:02x}", last) } else { String::new() };
    let range = last + 1;
    let text = format!("0101031010{range:02x}11\n0100001410141014{range:02x}{but}1a0003210021012102\n0201\n");
    let mut list = vec![0x10000];
    for pair in 0..256 {
        list.extend((0..u32::from(range)).map(|third| 256 * pair + 16 * third));
    }
    list.truncate(list.len() - usize::from(one_out));
    (text.into_bytes(), list)
}

/// The model with this instance for its start.
fn started_at(text: &[u8], equation: usize, arguments: &[u8]) -> Vec<u8> {
    let digits: String = arguments.iter().map(|a| format!("{a:02x}")).collect();
    let mut lines: Vec<Vec<u8>> = text.split_inclusive(|c| *c == b'\n').map(<[u8]>::to_vec).collect();
    if let Some(line) = lines.iter_mut().find(|line| line.starts_with(b"02")) {
        *line = format!("02{equation:02x}{digits}\n").into_bytes();
    }
    lines.concat()
}

/// A text that is refused, made from a model by a line more, at its begin or at its end.
fn spoiled(texts: &mut Texts, text: &[u8]) -> Vec<u8> {
    let (before, behind) = [
        ("", "0g\n"),
        ("", "\n"),
        ("", "0200\n"),
        ("0102\n", ""),
        ("0100001b\n", ""),
        ("0100001a0800\n", ""),
        ("03", ""), // the first line becomes a note, and others get other numbers
    ][texts.below(7)];
    [before.as_bytes(), text, behind.as_bytes()].concat()
}

// ---- the calls ------------------------------------------------------------------------------------

const ROOMS: [&str; 11] =
    ["0", "1", "one less", "just", "one more", "511", "512", "513", "any", "large", "65536 and less"];
const LOOKS: [&str; 3] = ["a list that looks right", "no words", "513 words"];

/// What was tried so far.
pub struct Apart {
    lent: Lent,
    others: Vec<Vec<u32>>,
    finds: u64,
    solves: u64,
    rooms: [[u64; 3]; ROOMS.len()],
    rights: [u64; 3],
    damages: [[u64; 3]; KINDS.len()],
    other_starts: u64,
    full_and_one: u64,
    over: u64,
    refused: [[u64; 9]; LOOKS.len()],
    too_short: u64,
}

fn fail_with(list: &[u32], what: &str, text: &[u8], expected: &[u8], got: &[u8]) -> ! {
    println!("caller.rs: with this list of {} words: {:08x?}", list.len(), &list[..list.len().min(LIST + 8)]);
    fail(what, text, expected, got)
}

fn size_of(list: &[u32]) -> usize {
    list.len().min(3) - 1
}

impl Apart {
    pub fn new() -> Apart {
        Apart {
            lent: Lent::new(),
            others: vec![],
            finds: 0,
            solves: 0,
            rooms: [[0; 3]; ROOMS.len()],
            rights: [0; 3],
            damages: [[0; 3]; KINDS.len()],
            other_starts: 0,
            full_and_one: 0,
            over: 0,
            refused: [[0; 9]; LOOKS.len()],
            too_short: 0,
        }
    }

    /// One call: the table lies in the middle of a longer one, all of which is looked at afterwards.
    fn call_find(&mut self, text: &[u8], words: usize, fill: u32) -> (Vec<u32>, Option<reference::Refusal>) {
        const EDGE: usize = 40;
        let filled = |i: usize| (i as u32).wrapping_mul(0x9e37_79b1) ^ fill;
        let mut whole: Vec<u32> = (0..words + 2 * EDGE).map(filled).collect();
        let (mut due, kept) = (whole.clone(), text.to_vec());
        let word = find(text, &mut whole[EDGE..EDGE + words]);
        let (list, refusal) = reference::find(text, words);
        due[EDGE..EDGE + list.len()].copy_from_slice(&list);
        let right = match refusal {
            None => list.len() as u64,
            Some((number, line)) => (1 << 63) + (u64::from(number) << 32) + line as u64,
        };
        self.finds += 1;
        if word != right {
            println!("caller.rs: {word:#x} for {right:#x} in a table of {words}");
            fail_with(&list, "another word from finding", text, &[], &[]);
        }
        if whole != due || kept != text {
            println!("caller.rs: in a table of {words}: {:08x?}", &whole[EDGE..EDGE + words.min(LIST + 8)]);
            fail_with(&list, "another table, or a word touched that should not be,", text, &[], &[]);
        }
        (list, refusal)
    }

    /// One call with a buffer of this length, which lies in the middle of a longer one; these bytes are due, or none
    /// where it is too short.
    fn call_solve(&mut self, text: &[u8], list: &[u32], due: &[u8], length: usize) {
        const EDGE: usize = 100;
        let mut whole: Vec<u8> = (0..length + 2 * EDGE).map(|i| (i as u8).wrapping_mul(17) ^ 0x3c).collect();
        let (mut expected, kept) = (whole.clone(), text.to_vec());
        let lent = self.lent.put(list);
        let written = solve(text, lent, &mut whole[EDGE..EDGE + length]);
        let answer = if length < ROOM { &[] } else { due };
        self.solves += 1;
        self.too_short += u64::from(length < ROOM);
        expected[EDGE..EDGE + answer.len()].copy_from_slice(answer);
        if reference::solve(text, list) != due {
            fail_with(list, "another answer of the plain one than is due", text, due, &[]);
        }
        if written != answer.len() || whole != expected || kept != text {
            println!("caller.rs: {written} bytes for {} in a buffer of {length}", answer.len());
            fail_with(list, "another answer from solving", text, answer, &whole[EDGE..EDGE + length]);
        }
    }

    fn must_write(&mut self, texts: &mut Texts, text: &[u8], list: &[u32], due: &[u8]) {
        let lengths = [ROOM, ROOM + 1, ROOM + texts.below(6_000), 8_192];
        self.call_solve(text, list, due, lengths[texts.below(4)]);
        if texts.below(8) == 0 {
            self.call_solve(text, list, due, [0, 9, 4_096, ROOM - 1][texts.below(4)]);
        }
    }

    /// A table of some of the lengths; `list` is the whole list, or the first 512 words of it.
    fn try_rooms(&mut self, texts: &mut Texts, text: &[u8], list: &[u32]) {
        let (n, less) = (list.len(), list.len().saturating_sub(1));
        let large = 514 + texts.below(2_000);
        let words = [0, 1, less, n, n + 1, 511, 512, 513, texts.below(520), large, WRAP + less];
        for _ in 0..3 {
            let most = ROOMS.len() - usize::from(texts.below(8) > 0); // the longest is filled seldom
            let room = texts.below(most);
            let fill = texts.below(1 << 32) as u32;
            let (found, refusal) = self.call_find(text, words[room], fill);
            let how = refusal.map_or(0, |(number, _)| if number == 9 { 1 } else { 2 });
            self.rooms[room][how] += 1;
            if how < 2 && found != list[..words[room].min(n)] {
                fail_with(&found, "another list of the plain one", text, &[], &[]);
            }
        }
    }

    /// Lists of which none is the text's.
    fn try_damages(&mut self, texts: &mut Texts, text: &[u8], list: &[u32], over: bool) {
        for _ in 0..3 {
            let kind = texts.below(KINDS.len());
            let lent = damaged(texts, kind, list, &self.others);
            if lent == list || (lent.len() > WRAP && texts.below(8) > 0) {
                continue;
            }
            self.must_write(texts, text, &lent, ANOTHER);
            self.damages[kind][size_of(list)] += u64::from(!over);
            self.full_and_one += u64::from(!over && list.len() == LIST && lent.len() == LIST + 1);
        }
    }

    /// The list of the same equations from another instance that is reached, and the other way round.
    fn try_other_start(&mut self, texts: &mut Texts, text: &[u8], list: &[u32]) {
        if let (Ok(reached), 2..) = (reference::check(text), list.len()) {
            let ((equation, arguments), _) = &reached[1 + texts.below(list.len() - 1)];
            let other = started_at(text, *equation, arguments);
            let (its, refusal) = self.call_find(&other, LIST, 0);
            if refusal == Some((1, 0)) {
                return; // its line is longer, and so is the text
            }
            self.must_write(texts, text, &its, ANOTHER);
            self.must_write(texts, &other, list, ANOTHER);
            self.other_starts += 1;
        }
    }

    fn try_refused(&mut self, texts: &mut Texts, text: &[u8], looks_right: &[u32], number: u8, due: &[u8]) {
        let mut filled = looks_right.to_vec();
        filled.resize(LIST + 1, 0);
        for (look, list) in [looks_right, &[], &filled].into_iter().enumerate() {
            self.must_write(texts, text, list, due);
            self.refused[look][usize::from(number)] += 1;
        }
    }

    /// What solving writes on what finding leaves, and so for the text in small letters, is what checking writes.
    fn try_after_each_other(&mut self, text: &[u8]) {
        let (mut checked, mut solved) = (vec![0; ROOM], vec![0; ROOM]);
        let length = check(text, &mut checked);
        for same in [text, &small(text)] {
            let mut table = [0xdead_beef_u32; LIST];
            let word = find(same, &mut table);
            let written = if word >> 63 == 0 {
                solve(text, &table[..word as usize], &mut solved)
            } else {
                let line = format!("06{:02x}{:04x}\n", word >> 32 & 0x7fff_ffff, word & 0xffff_ffff);
                solved[..line.len()].copy_from_slice(line.as_bytes());
                line.len()
            };
            if solved[..written] != checked[..length] {
                fail("another answer by finding and solving", text, &checked[..length], &solved[..written]);
            }
        }
        self.finds += 2;
    }

    /// One text, in all these ways.
    pub fn try_text(&mut self, texts: &mut Texts, text: &[u8], expected: &[u8]) {
        let (list, refusal) = self.call_find(text, LIST, texts.below(1 << 32) as u32);
        self.try_rooms(texts, text, &list);
        self.try_after_each_other(text);
        match refusal {
            None => {
                self.try_damages(texts, text, &list, false);
                self.try_other_start(texts, text, &list);
                self.must_write(texts, text, &list, expected);
                self.rights[size_of(&list)] += 1;
                if self.others.len() == 20 {
                    self.others.remove(0);
                }
                self.others.push(list.clone());
                self.try_spoiled(texts, text, &list);
            }
            Some((9, _)) => {
                self.try_damages(texts, text, &list, true);
                self.must_write(texts, text, &list, ANOTHER);
            }
            Some((number, _)) => {
                let looks_right = self.others.last().cloned().unwrap_or(vec![0]);
                self.try_refused(texts, text, &looks_right, number, expected);
            }
        }
    }

    fn try_spoiled(&mut self, texts: &mut Texts, text: &[u8], list: &[u32]) {
        let bad = spoiled(texts, text);
        if let (_, Some((number @ 1..=8, line))) = self.call_find(&bad, LIST, 0) {
            let due = format!("06{number:02x}{line:04x}\n");
            self.try_refused(texts, &bad, list, number, due.as_bytes());
        }
    }

    /// Models that reach 512, 513 and 769 instances, whose lists are known from how they are made.
    pub fn try_large(&mut self, texts: &mut Texts) {
        let (last, one_out) = [(1, true), (1, false), (2, false)][texts.below(3)];
        let (text, list) = large_model(last, one_out);
        let (found, refusal) = self.call_find(&text, LIST, 0);
        if found != list[..LIST] || refusal.is_some() != (list.len() > LIST) {
            fail_with(&list, "another list of a large model", &text, &[], &[]);
        }
        if refusal.is_some() {
            self.call_find(&text, WRAP + texts.below(LIST), 0);
            self.rooms[ROOMS.len() - 1][1] += 1;
            self.must_write(texts, &text, &list[..LIST], ANOTHER);
            self.must_write(texts, &text, &list[..=LIST], ANOTHER);
            self.must_write(texts, &text, &list, ANOTHER);
            self.over += 1;
        }
        self.try_text(texts, &text, &reference::print(&text));
    }

    /// Prints how often what was tried; whether a kind of it is missing.
    pub fn summary(&self) -> bool {
        let rest = [self.other_starts, self.full_and_one, self.over, self.too_short];
        let mut missing = rest.contains(&0) || self.rights.contains(&0);
        print!("caller.rs: {} finds, {} solves, no difference", self.finds, self.solves);
        print!(": tables (found, over, refused before)");
        for (room, [found, over, before]) in ROOMS.iter().zip(self.rooms) {
            print!(" {room}: {found} {over} {before};");
            missing |= over == 0 || before == 0 || (found == 0 && *room != "0" && *room != "one less");
        }
        print!(" right lists of 1, 2, more words: {:?}", self.rights);
        print!("; other lists, where the right one has 1, 2, more:");
        for (kind, [one, two, more]) in KINDS.iter().zip(self.damages) {
            print!(" {kind} {one} {two} {more},");
            let two_wanted = ["by more", "a word dropped", "two exchanged"].contains(kind);
            missing |= two == 0 || more == 0 || (one == 0 && !two_wanted);
        }
        print!(" from another start {}", self.other_starts);
        print!("; 512 and one more {}, of more than 512 the first 512, and 513, {}", self.full_and_one, self.over);
        print!("; texts refused by 1 to 8");
        for (look, numbers) in LOOKS.iter().zip(self.refused) {
            print!(" with {look}: {:?}", &numbers[1..]);
            missing |= numbers[1..].contains(&0);
        }
        println!("; short buffers {}", self.too_short);
        missing
    }
}
