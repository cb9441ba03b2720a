//! Calls the checker's archive from Rust with thousands of texts and compares every byte with a
//! plain checker, with plain finding and solving apart from each other, and with a plain writer that replaces one
//! right side; they share no code with it. A text with capital digits must have the answer of the same text in small
//! letters. The first difference ends the run with status 1.
//!
//!     caller [HOW MANY [SEED]]

#[path = "../../rust/reference.rs"]
mod reference;
#[path = "apart.rs"]
mod apart;
#[path = "texts.rs"]
mod texts;

use apart::Apart;
use std::process::exit;
use texts::Texts;

/// The least length that a buffer must have.
const ROOM: usize = 7_693;

/// No text with a right side replaced has more bytes.
const LONGEST: usize = 32_768;

extern "C" {
    // A slice is passed as its pointer and its length.
    fn devashtor_check(text: *const u8, text_length: usize, out: *mut u8, out_length: usize) -> usize;
    fn devashtor_replace(
        text: *const u8,
        text_length: usize,
        equation: usize,
        side: *const u8,
        side_length: usize,
        out: *mut u8,
        out_length: usize,
    ) -> u64;
}

fn check(text: &[u8], out: &mut [u8]) -> usize {
    unsafe { devashtor_check(text.as_ptr(), text.len(), out.as_mut_ptr(), out.len()) }
}

fn fail(what: &str, text: &[u8], expected: &[u8], got: &[u8]) -> ! {
    println!("caller.rs: {what} for this text of {} bytes:", text.len());
    println!("{}", text.escape_ascii());
    println!("expected:\n{}got:\n{}", expected.escape_ascii(), got.escape_ascii());
    exit(1)
}

/// One call: the buffer lies in the middle of a longer one, all of which is looked at afterwards.
fn call(text: &[u8], expected: &[u8], length: usize, fill: u8) {
    const EDGE: usize = 100;
    let mut whole: Vec<u8> = (0..length + 2 * EDGE).map(|i| (i as u8).wrapping_mul(11) ^ fill).collect();
    let mut due = whole.clone();
    let kept = text.to_vec();
    let written = check(text, &mut whole[EDGE..EDGE + length]);
    let answer = if length < ROOM { &[] } else { expected };
    if written != answer.len() {
        fail("another number of bytes", text, answer, &whole[EDGE..EDGE + written.min(length)]);
    }
    due[EDGE..EDGE + answer.len()].copy_from_slice(answer);
    if whole != due {
        fail("other bytes, or a byte outside the answer touched,", text, answer, &whole[EDGE..EDGE + written]);
    }
    if kept != text {
        fail("a changed text", &kept, answer, text);
    }
}

// ---- replacing a right side ---------------------------------------------------------------------

/// What is to be replaced: the right side of this equation of the text.
struct Task<'a> {
    text: &'a [u8],
    equation: usize,
    side: &'a [u8],
}

fn replace(task: &Task, out: &mut [u8]) -> u64 {
    let (text, side) = (task.text, task.side);
    unsafe {
        let to = out.as_mut_ptr();
        devashtor_replace(text.as_ptr(), text.len(), task.equation, side.as_ptr(), side.len(), to, out.len())
    }
}

/// The word that comes back, of a text written or of a refusal.
fn word_of(result: &Result<Vec<u8>, reference::Refusal>) -> u64 {
    match result {
        Ok(text) => text.len() as u64,
        Err((number, line)) => (1 << 63) + (u64::from(*number) << 32) + *line as u64,
    }
}

/// One call, with all of a longer buffer looked at afterwards; gives what the plain writer says.
fn call_replace(task: &Task, length: usize, fill: u8) -> Result<Vec<u8>, reference::Refusal> {
    const EDGE: usize = 100;
    let mut whole: Vec<u8> = (0..length + 2 * EDGE).map(|i| (i as u8).wrapping_mul(13) ^ fill).collect();
    let mut due = whole.clone();
    let kept = (task.text.to_vec(), task.side.to_vec());
    let word = replace(task, &mut whole[EDGE..EDGE + length]);
    let result = reference::replace(task.text, task.equation, task.side, length);
    let right = result.clone().unwrap_or_default();
    due[EDGE..EDGE + right.len()].copy_from_slice(&right);
    if word != word_of(&result) || whole != due || kept.0 != task.text || kept.1 != task.side {
        println!("caller.rs: equation {}, right side {:02x?}", task.equation, task.side);
        println!("caller.rs: {word:#x} for {:#x} in a buffer of {length}", word_of(&result));
        fail("another word, or other bytes,", task.text, &right, &whole[EDGE..EDGE + length]);
    }
    result
}

/// How often each number refused, first of the old text, then of what came of it; 0 is what was accepted.
type Refusals = [[u64; 20]; 2];

/// One text with a right side and an equation by chance, in buffers of several lengths.
fn try_replace(texts: &mut Texts, text: &[u8], seen: &mut Refusals) -> u64 {
    let count = text.split(|c| *c == b'\n').filter(|line| line.starts_with(b"01")).count();
    let there = texts.below(count.max(1));
    let others = [count, 8, 255, there + 256, there + (1 << 32), usize::MAX];
    let equation = if texts.below(8) > 0 { there } else { others[texts.below(others.len())] };
    let side = texts.side(text, equation);
    let (task, fill) = (Task { text, equation, side: &side }, texts.below(256) as u8);
    let old_number = match reference::replace(text, usize::MAX, &[], 0) {
        Err((number, _)) if number != 19 => number,
        _ => 0, // it is read, and has no such equation
    };
    match call_replace(&task, LONGEST + texts.below(3_000), fill) {
        Err((number, _)) => {
            seen[usize::from(old_number == 0)][usize::from(number)] += 1;
            call_replace(&task, texts.below(50), fill).ok();
            2
        }
        Ok(result) => {
            seen[1][0] += 1;
            for length in [result.len(), result.len() - 1, 0] {
                if let Err((number, _)) = call_replace(&task, length, fill) {
                    seen[1][usize::from(number)] += 1;
                }
            }
            let back = Task { text: &result, equation, side: &texts::side_of(text, equation) };
            let due = texts::with_small_side(text, equation);
            if call_replace(&back, LONGEST, fill).as_ref() != Ok(&due) {
                fail("the old right side, in small letters, does not come back", text, &due, &result);
            }
            5
        }
    }
}

fn main() {
    let mut arguments = std::env::args().skip(1).map(|a| a.parse::<u64>().expect("a number"));
    let wanted = arguments.next().unwrap_or(10_000);
    let mut texts = Texts::new(arguments.next().unwrap_or(1));
    let (mut seen, mut reached, mut calls) = ([0u64; 11], 0, 0);
    let (mut replaced, mut replacements): (Refusals, u64) = ([[0; 20]; 2], 0);
    let mut apart = Apart::new();
    for n in 0..wanted {
        let text = texts.next();
        let expected = reference::print(&text);
        match reference::check(&text) {
            Err((number, _)) => seen[usize::from(number)] += 1,
            Ok(list) => {
                seen[if list[0].1 { 10 } else { 0 }] += 1;
                reached += list.len();
            }
        }
        let fill = texts.below(256) as u8;
        let lengths = [ROOM, ROOM + 1 + texts.below(5_000), ROOM + 299];
        call(&text, &expected, lengths[n as usize % 3], fill);
        call(&texts::small(&text), &expected, ROOM, fill);
        calls += 2;
        if n % 7 == 0 {
            let length = [0, 12, ROOM - 1][texts.below(3)];
            call(&text, &expected, length, fill);
            calls += 1;
        }
        replacements += try_replace(&mut texts, &text, &mut replaced);
        apart.try_text(&mut texts, &text, &expected);
        if n % 50 == 0 {
            apart.try_large(&mut texts);
        }
    }
    print!("caller.rs: {wanted} texts, {calls} calls, no difference: {} hold, {} fail, refused", seen[10], seen[0]);
    (1..10).for_each(|number| print!(" {number}:{}", seen[number]));
    println!("; {reached} instances");
    let [old, new] = replaced;
    print!("caller.rs: {replacements} calls to replace, no difference: {} accepted, refused the old text by", new[0]);
    (1..9).for_each(|number| print!(" {number}:{}", old[number]));
    print!("; then by");
    [19, 1, 3, 6, 7, 10].iter().for_each(|number| print!(" {number}:{}", new[*number]));
    println!();
    let mut missing = old[1..9].contains(&0) || [0, 19, 1, 3, 6, 7, 10].iter().any(|number| new[*number] == 0);
    missing |= apart.summary();
    if wanted >= 4_000 && (seen.contains(&0) || missing) {
        println!("caller.rs: an answer, a table or a list of some kind is missing, so this run is too weak");
        exit(1);
    }
}
