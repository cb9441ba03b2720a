//! What a reader has to believe: the definitions that public contracts and headline theorems name, those that
//! these name in turn, and so on. It goes by names, so it may list one too many but none too few: a word that
//! is not declared, not bound and not of the language ends it. `believe list` prints the table that stands in
//! docs/PROMISES.md, `believe write` puts it there, `believe check` compares. Run it where crates.txt stands.
use std::collections::{BTreeMap, BTreeSet, HashMap, HashSet};
use std::fs::{read_dir, read_to_string, write};

const PAGE: &str = "docs/PROMISES.md";
const BEGIN: &str = "<!-- believed: begin -->\n";
const END: &str = "<!-- believed: end -->\n";
/// Their public theorems are the headlines, and those of every specs/OneReply. Of a file in BESIDE it is
/// those that the page names: the others serve the proofs of the code.
const HEADLINES: &str = "answers/proofs/Demand1 answers/proofs/Demand2 answers/proofs/Demand3
    frames/proofs/RoundTrip reading/proofs/LineNumbers answers/proofs/Samples answers/proofs/Apart
    lending/proofs/Lent lending/specs/Promises lending/proofs/Apart lending/proofs/Letters checker/specs/Promises checker/specs/Apart
    meaning/proofs/Looser meaning/proofs/Counterexamples meaning/proofs/GoesRound printing/specs/Promise
    printing/proofs/Answered
    translation/proofs/Correct translation/proofs/Sound translation/proofs/Looser spelling/proofs/ModelText
    inputs/proofs/Content translator/specs/Answers translator/specs/Printed translator/specs/Theorems replacer/proofs/Order replacer/proofs/Theorems
    replacer/proofs/Samples digits/proofs/Letters frames/proofs/Letters reading/specs/Letters answers/proofs/Letters
    translator/specs/Letters replacer/proofs/Letters checker/specs/Letters";
const BESIDE: &str = "digits/proofs/Letters reading/proofs/LineNumbers printing/proofs/Answered";
const LIBRARIES: &str = "std core mathlib lib mir Prim borrow native";
const LANGUAGE: &str = "( ) { } [ ] ; , : = | ↦ → × λ ⌜ ⌝ _ ⊥ Type Unit tt abbrev unfoldable pub data record
    unfolding where let in elim absurd if then else struct enum ensures requires result now old new -> mut impl dyn
    bool u8 u16 u32 u64 usize Option Result Print";

/// A definition, a theorem, a struct, an enum, or the contract of a public function.
struct Item {
    name: String,
    /// a public theorem or a contract
    states: bool,
    /// how many lines it takes, with the comment right above
    lines: usize,
    /// its type, with the heads of the sections that it stands in; the rest of it
    statement: String,
    rest: String,
}

#[derive(Default)]
struct Source {
    items: Vec<Item>,
    /// what is declared here, constructors as well: the number of the item
    names: HashMap<String, usize>,
    /// what is used from elsewhere: the file, empty where it is a library, and the name there
    uses: HashMap<String, (String, String)>,
}

fn fail(sentence: String) -> ! {
    eprintln!("believe: {sentence}");
    std::process::exit(1)
}

fn one_of(word: &str, list: &str) -> bool {
    list.split_whitespace().any(|w| w == word)
}

fn indent(line: &str) -> usize {
    line.len() - line.trim_start().len()
}

/// The words of a text, without comments and quoted texts.
fn words(text: &str) -> Vec<String> {
    let apart = |c: char| if "(){},;".contains(c) { format!(" {c} ") } else { c.to_string() };
    let code = |l: &str| l.split('"').step_by(2).flat_map(str::chars).map(apart).collect::<String>();
    let lines = text.lines().map(|l| format!(" {}", code(l)).split(" --").next().unwrap_or("").to_string());
    lines.collect::<Vec<_>>().join("\n").split_whitespace().map(String::from).collect()
}

/// The names that a text binds: `(x y : ..)`, `λ x y. ..`, and what a `=` has to its left.
fn bound(text: &str) -> HashSet<String> {
    let mut found = HashSet::new();
    for line in text.lines().map(words) {
        for (k, word) in line.iter().enumerate().filter(|(_, w)| one_of(w, ": =") || w.ends_with('.')) {
            let from = if word == ":" { "( {" } else if word == "=" { "{ ;" } else { "λ" };
            let left = line[..=k].iter().rev().take_while(|w| !one_of(w, from));
            found.extend(left.map(|w| w.trim_end_matches('.').to_string()));
        }
    }
    found
}

/// A use of code, `a::b` or `a::{b, c}` or `a::m::{b, c}` with a module m, written as specs have it.
fn used_in_code(text: &str) -> String {
    let Some((place, names)) = text.rsplit_once("::") else { return format!("use {text}\n") };
    let (in_crate, module) = place.split_once("::").unwrap_or((place, ""));
    let module = if module.is_empty() { String::new() } else { format!(".{module}.all") };
    format!("use {in_crate}.specs.declared{module}.{{{}}}\n", names.trim_matches(['{', '}']))
}

/// The head and the contract of a function without the signs of types, and without the names of clauses.
fn of_function(text: &str) -> String {
    let clause = |l: &&str| one_of(l.split_whitespace().next().unwrap_or(""), "ensures requires");
    let signature = text.lines().take_while(|l| !clause(l)).collect::<Vec<_>>().join("\n");
    let plain = signature.replace("->", "→").replace("::", " ").replace(" + ", " ").replace(['<', '>', '\''], " ");
    text[signature.len()..].lines().fold(plain, |all, l| match l.split_once('{') {
        Some((kind, rest)) if clause(&l) => format!("{all}\n  {} {{{rest}", kind.split_whitespace().next().unwrap_or("")),
        _ => format!("{all}\n{l}"),
    })
}

/// Code with what stands in an `impl` at the margin, and with a type for the parameter T that a file binds.
fn flat(code: &str) -> String {
    let mut inside = false;
    let code = &if code.contains("<T>") {
        code.replace("<T>", "").replace(": T,", ": Type,").replace(": T)", ": Type)")
    } else {
        code.to_string()
    };
    let line = |l: &str| {
        let edge = (l.starts_with("impl") && l.ends_with('{')) || (inside && l == "}");
        inside = if edge { !inside } else { inside };
        let l = if inside { l.strip_prefix("    ").unwrap_or(l) } else { l };
        if edge { String::new() } else { format!("{l}\n") }
    };
    code.lines().map(line).collect()
}

/// Code, written as specs are: what it uses, structs and enums, and the contracts of public functions and what a
/// conversion gives.
fn as_specs(in_crate: &str, code: &str) -> String {
    let mut specs = String::new();
    let code = flat(code).replace("crate::", &format!("{in_crate}::"));
    for paragraph in format!("\n{code}").replace("\n//", "\n--").replace("\n#", "\n--").split("\n\n") {
        let paragraph = paragraph.replace(['[', ']', '&'], " ").replace(": ", " : ");
        let lines = || paragraph.lines().filter(|l| !l.starts_with("--"));
        for used in lines().collect::<Vec<_>>().join(" ").split(';').map(str::trim) {
            // a function may be named as the definition that it computes, and a contract means that one
            specs.insert_str(0, &used.strip_prefix("use ").map_or(String::new(), used_in_code));
            specs += &used.strip_prefix("ghost ").map_or(String::new(), |l| match l.split_once(" = ") {
                Some((gives, what)) => format!("pub {gives} : {what}\n"),
                None => format!("{l}\n"),
            });
        }
        let head = lines().next().unwrap_or("");
        if head.starts_with("pub ") && one_of("fn", head) {
            // a function's name is no word of specs; one with no contract has its brace in its first line
            let contract = lines().skip(1).take_while(|l| *l != "{" && !head.ends_with('{'));
            let text = std::iter::once(head.trim_end_matches('{')).chain(contract).collect::<Vec<_>>().join("\n  ");
            let text = of_function(&text);
            specs += &format!("pub fn·{}\n", text.split("fn ").nth(1).unwrap_or("")).replacen('(', " : (", 1);
        } else if one_of("struct", head) || one_of("enum", head) {
            let declared = paragraph.replace("pub(crate) ", "pub ").replace(['<', '>'], " ");
            specs += &format!("\n{}\n", declared.replace("\n    ", "\n  ").replace("\n}", "\n  }"));
        }
    }
    specs
}

/// Takes in `A.B.{x, y as z}`, or `A.B as m`, after which `m.x` is used.
fn take_use(uses: &mut HashMap<String, (String, String)>, text: &str) {
    let (module, names) = text.split_once(".{").or(text.split_once(" as ")).unwrap_or((text, ""));
    let parts: Vec<&str> = module.trim_start_matches("Rattle.").split('.').collect();
    let in_crate = parts[0];
    let file = match parts[..] {
        [library, ..] if one_of(library, LIBRARIES) => String::new(),
        [_, _, "declared", module, _] if module.starts_with(char::is_lowercase) => format!("{in_crate}/src/{module}"),
        [_, _, "declared", ..] => format!("{in_crate}/src/lib"),
        _ => format!("{in_crate}/{}", parts[1..].join("/")),
    };
    for name in names.trim_end_matches('}').split(',').map(str::trim) {
        let (there, here) = name.split_once(" as ").unwrap_or((name, name));
        let here = if text.contains(".{") { here.to_string() } else { format!("{here}.") };
        uses.insert(here, (file.clone(), there.to_string()));
    }
}

/// Specs are blocks that start at the margin of their section; what is further in is theirs.
fn source_of(text: &str) -> Source {
    let mut source = Source::default();
    let mut sections: Vec<(usize, String)> = vec![(0, String::new())];
    let lines: Vec<&str> = text.lines().collect();
    let (mut end, mut above) = (0, 0);
    while end < lines.len() {
        let (start, line) = (end, lines[end]);
        end += 1;
        if line.trim().is_empty() || line.trim_start().starts_with("--") || line.starts_with("infix") {
            above = if line.trim().is_empty() { 0 } else { above + 1 };
            continue;
        }
        let margin = indent(line);
        sections.retain(|(m, _)| *m <= margin);
        let first = words(line);
        end += match first[0].as_str() {
            "module" => lines[start..].iter().take_while(|l| !l.ends_with("where")).count(),
            _ => lines[end..].iter().take_while(|l| l.trim().is_empty() || indent(l) > margin).count(),
        };
        let block = lines[start..end].join("\n");
        let size = std::mem::take(&mut above) + block.lines().filter(|l| !l.trim().is_empty()).count();
        let marks = first.iter().take_while(|w| one_of(w, "abbrev unfoldable pub")).count();
        let is_type = one_of(&first[marks], "data record struct enum");
        if first[0] == "module" {
            sections.push((margin + 2, block.replace("module _", "") + "\n"));
        } else if first[0] == "use" {
            take_use(&mut source.uses, block.trim_start_matches("use ").trim());
        } else if is_type || first.get(marks + 1).is_some_and(|w| w == ":") {
            let (place, number) = (marks + usize::from(is_type), source.items.len());
            source.names.insert(first[place].clone(), number);
            let is_choice = one_of(&first[marks], "data enum");
            let further = if block.lines().any(|l| l.trim() == "where") { 4 } else { 2 };
            for member in block.lines().filter(|l| is_choice && indent(l) == margin + further) {
                for word in words(member).into_iter().take_while(|w| !one_of(w, ": ( , }")) {
                    source.names.entry(word).or_insert(number);
                }
            }
            let around: String = sections.iter().map(|(_, head)| head.as_str()).collect();
            let statement = around + &first[place + 1..].join(" ") + &block[line.len()..];
            let (name, states) = (first[place].clone(), first[0] == "pub" && !is_type);
            source.items.push(Item { name, states, lines: size, statement, rest: String::new() });
        } else if let Some(item) = source.items.last_mut() {
            item.lines += size;
            item.rest += &format!("{block}\n");
        }
    }
    source
}

/// The file and the number of the item that a name means in a file; a library has no file.
fn find(sources: &BTreeMap<String, Source>, file: &str, name: &str) -> Option<(String, usize)> {
    let (source, infix) = (sources.get(file)?, format!("◌{name}◌"));
    if let Some(number) = source.names.get(name).or(source.names.get(&infix)) {
        return Some((file.to_string(), *number));
    }
    let (there, name) = source.uses.get(name).or(source.uses.get(&infix))?;
    if there.is_empty() { Some((String::new(), 0)) } else { find(sources, there, name) }
}

/// The items that a text, a part of an item, names.
fn named(sources: &BTreeMap<String, Source>, file: &str, item: &Item, text: &str) -> Vec<(String, usize)> {
    let (mut found, bound) = (Vec::new(), bound(text));
    let is_other = |w: &str| w.ends_with('.') || w.starts_with(|c: char| c == '.' || c.is_ascii_digit());
    for word in words(text).iter().filter(|w| !is_other(w)) {
        // `m.x` of a file that is called m here, or something and its field
        let (head, name) = word.split_once('.').unwrap_or((word, ""));
        let target = match sources[file].uses.get(&format!("{head}.")) {
            Some((there, _)) => find(sources, there, name),
            None => find(sources, file, head),
        };
        if target.is_none() && !one_of(head, LANGUAGE) && !bound.contains(head) {
            fail(format!("{file}: `{}` names `{word}`, which nothing declares", item.name));
        }
        found.extend(target.filter(|(there, _)| !there.is_empty()));
    }
    found
}

fn main() {
    let read = |path: &str| read_to_string(path).unwrap_or_else(|e| fail(format!("{path}: {e}")));
    let list = read("crates.txt");
    let crates: Vec<&str> = list.lines().filter_map(|l| l.split_once(':')).map(|(name, _)| name).collect();
    let mut sources: BTreeMap<String, Source> = BTreeMap::new();
    for (in_crate, folder) in crates.iter().flat_map(|c| ["specs", "proofs", "src"].map(|f| (c, f))) {
        for entry in read_dir(format!("crates/{in_crate}/{folder}")).into_iter().flatten().flatten() {
            if let Some((name, ending)) = entry.file_name().to_string_lossy().split_once('.') {
                let text = read(&entry.path().to_string_lossy());
                let source = source_of(&if ending == "rt" { as_specs(in_crate, &text) } else { text });
                sources.insert(format!("{in_crate}/{folder}/{name}"), source);
            }
        }
    }
    let page = read(PAGE);
    let marked = page.split_once(BEGIN).and_then(|(b, rest)| Some((b, rest.split_once(END)?)));
    let Some((before, (table, after))) = marked else { fail(format!("{PAGE} has no marks for the table")) };
    let lost = |h: &&str| !sources.contains_key(*h);
    HEADLINES.split_whitespace().filter(lost).for_each(|h| fail(format!("there is no file {h}")));
    let mut open: Vec<(String, usize)> = Vec::new();
    for (file, source) in &sources {
        let is_root = one_of(file, HEADLINES) || file.ends_with("/specs/OneReply") || file.contains("/src/");
        for item in source.items.iter().filter(|i| is_root && i.states) {
            let on_page = |end| [before, after].concat().contains(&format!("`{}{end}", item.name));
            if !one_of(file, BESIDE) || on_page(" :") || on_page("`") {
                open.extend(named(&sources, file, item, &item.statement));
            }
        }
    }
    let mut believed: BTreeMap<(usize, String), BTreeSet<usize>> = BTreeMap::new();
    while let Some((file, number)) = open.pop() {
        let place = crates.iter().position(|c| file.split('/').next() == Some(c)).unwrap_or(0);
        if believed.entry((place, file.clone())).or_default().insert(number) {
            let item = &sources[&file].items[number];
            open.extend(named(&sources, &file, item, &format!("{}\n{}", item.statement, item.rest)));
        }
    }
    let mut wanted = String::from("| file | definitions | lines |\n|---|---|---|\n");
    let (mut definitions, mut lines) = (0, 0);
    for ((_, file), numbers) in &believed {
        let items: Vec<&Item> = numbers.iter().map(|k| &sources[file].items[*k]).collect();
        let names: Vec<String> = items.iter().map(|i| format!("`{}`", i.name)).collect();
        let size: usize = items.iter().map(|i| i.lines).sum();
        let ending = if file.contains("/src/") { "rt" } else { "antt" };
        wanted += &format!("| {file}.{ending} | {} | {size} |\n", names.join(", "));
        (definitions, lines) = (definitions + items.len(), lines + size);
    }
    wanted += &format!("\nTogether {definitions} definitions in {} files, {lines} lines.\n", believed.len());
    match std::env::args().nth(1).as_deref() {
        Some("list") => print!("{wanted}"),
        Some("write") => write(PAGE, [before, BEGIN, &wanted, END, after].concat()).expect(PAGE),
        _ if table == wanted => {}
        _ => {
            let mut pairs = table.lines().chain(["nothing"]).zip(wanted.lines().chain(["nothing"]));
            let (there, here) = pairs.find(|(there, here)| there != here).unwrap_or_default();
            fail(format!("{PAGE} has another list.\n  there:    {there}\n  computed: {here}"))
        }
    }
}
