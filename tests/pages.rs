// Pages cannot rot: every crate, module, theorem, definition, must-fail edit and file that README.md and docs/*.md name is there, in the
// module that they say, and docs/ARCHITECTURE.md has the floors of crates.txt. Other folders' pages, docs/PORT.md, docs/DESIGN-PASS.md
// and docs/LOOK-BACK.md are read for links alone.
//
// pages [--root DIR]              a line for each name that is not there, and exit 1; else one line
// pages --self-test [--root DIR]  changes one name after the other, in memory; exit 1 if a change is not refused

use std::collections::{BTreeMap, BTreeSet};

/// Words in backticks, and dependencies of crates, that are not ours: of the toolchain, of Rust, of C, of the shell. Sorted.
const NOT_OURS: &str = "END GLIBC_TUNABLES List __xpg_strerror_r axioms cargo copy_within get_unchecked incremental libraries-built logic-built lseek \
                        memmove mut native no-vectorize-loops no-vectorize-slp rattle-kit-13f rattle-kit-5b-plain rattle_errno requires \
                        result rustc statements stdio.h stdlib.h target";
const DEFINITIONS: &str = "model"; // the crate of the column "definitions (model)"
const THEOREMS: &str = "theory"; // the crate of a module that is named without one
const PICTURED: &str = "docs/ARCHITECTURE.md"; // the page with the floors and, fenced, the picture
const LISTED: &str = "crates.txt";
const TOLD: [&str; 3] = ["docs/PORT.md", "docs/DESIGN-PASS.md", "docs/LOOK-BACK.md"]; // they tell of names that were, as the notes in docs/changes do
const PARENS: [char; 2] = ['(', ')'];
type Tree = BTreeMap<String, String>;
type Set<'a> = BTreeSet<&'a str>;
type Place<'a> = (&'a str, &'a str); // a crate, and a module or folder of it, or "" for all of it
type Named = (String, usize, String, String, String); // page, line, kind (of those that are counted), token, and why it is not there, or ""

/// Reads the files below a folder, but for what is built.
fn load(root: &str, below: &str, tree: &mut Tree) -> std::io::Result<()> {
    for entry in std::fs::read_dir(format!("{root}/{below}"))? {
        let path = format!("{below}{}", entry?.file_name().to_string_lossy());
        if let Ok(bytes) = std::fs::read(format!("{root}/{path}")) {
            tree.insert(path, String::from_utf8_lossy(&bytes).into_owned());
        } else if !["target", ".git", "out"].contains(&path.rsplit('/').next().unwrap()) {
            load(root, &format!("{path}/"), tree)?;
        }
    }
    Ok(())
}

fn listed(words: &str, word: &str) -> bool {
    words.split_whitespace().any(|w| w == word)
}
fn is_part(c: char) -> bool {
    c.is_alphanumeric() || c == '_'
}
fn is_module(word: &str) -> bool {
    word.starts_with(char::is_uppercase) && word.contains(char::is_lowercase) && word.chars().all(is_part) && !listed(NOT_OURS, word)
}
fn is_path(text: &str) -> bool {
    let ending = text.rsplit_once('.').map_or("", |(_, ending)| ending);
    text.contains('/') || listed("rs rt antt c h md edit txt in out", ending)
}
fn cells(row: &str) -> Vec<&str> {
    row.trim().trim_matches('|').split('|').map(str::trim).collect()
}
/// Is the name among these, or one that it fits as a pattern with * or ..?
fn any_like(names: &Set, name: &str) -> bool {
    let pattern = name.replace("..", "*");
    names.contains(name) || pattern.contains('*') && names.iter().any(|n| like(&pattern, n))
}
fn like(pattern: &str, text: &str) -> bool {
    let (front, rest) = pattern.split_once('*').unwrap_or((pattern, ""));
    let (middle, last) = rest.rsplit_once('*').unwrap_or(("", rest));
    let mut inner = text.strip_prefix(front).and_then(|t| t.strip_suffix(last));
    middle.split('*').for_each(|m| inner = inner.and_then(|t| Some(t.split_once(m)?.1)));
    inner.is_some_and(|t| t.is_empty() || pattern.contains('*'))
}

/// What a file declares: in .antt, .rt and .rs what stands behind a keyword or before " : ", and variants; in C the words of declarations
/// and statements; in .out what a session prints.
fn declared<'a>(path: &str, text: &'a str) -> Set<'a> {
    const BEFORE: &str = "pub abbrev unfoldable opaque record data fn struct enum const static mod type trait";
    let mut names = Set::new();
    for line in text.lines().filter(|l| !l.trim().starts_with("--") && !l.trim().starts_with("//")) {
        let all: Vec<&str> = line.split_whitespace().take(5).collect();
        let plain = |w: &&'a str| w.split(['(', '<', ':', ',', ';']).next().unwrap();
        match path.rsplit_once('.').map_or("", |(_, ending)| ending) {
            "antt" | "rt" | "rs" => {
                names.extend(all.windows(2).filter(|w| listed(BEFORE, w[0])).map(|w| plain(&w[1])));
                let typed = all.get(1) == Some(&":") && !line.starts_with("   ");
                let variant = line.ends_with(',') && !line.contains("::") && all[0].starts_with(char::is_uppercase);
                names.extend(all.first().filter(|_| typed || variant).map(plain));
            }
            "c" | "h" if !line.starts_with(['/', ' ']) || line.ends_with(';') => names.extend(line.split(|c| !is_part(c))),
            "out" => names.extend(line.split_whitespace()),
            _ => {}
        }
    }
    names
}

/// Words, `spans`, (parentheses), and marks one by one, a possessive's 's among them.
fn tokens(text: &str) -> Vec<&str> {
    let (mut found, mut rest) = (vec![], text);
    while let Some(c) = rest.chars().next() {
        let word = || rest.split(|c| !is_part(c) && !"-/.".contains(c)).next().unwrap();
        let closes = |i: &usize| rest[..=*i].matches('(').count() == rest[..=*i].matches(')').count();
        let length = match c {
            '`' => rest[1..].find('`').map_or(1, |i| i + 2),
            '(' => rest.match_indices(')').map(|(i, _)| i).find(closes).map_or(1, |i| i + 1),
            '\'' if rest.starts_with("'s") => 2,
            _ if is_part(c) => word().trim_end_matches(['-', '/', '.']).len(),
            _ => c.len_utf8(),
        };
        found.push(&rest[..length]);
        rest = &rest[length..];
    }
    found.retain(|t| !t.trim_matches(['*', ' ', '\n']).is_empty());
    found
}

/// What a span names that a module can declare: of `name : type` the name.
fn name<'a>(token: &&'a str) -> Option<&'a str> {
    let name = token.strip_prefix('`')?.strip_suffix('`')?.split(" : ").next()?;
    (!name.contains(['/', ' ', '\n']) && !name.contains("::")).then_some(name)
}
fn names<'a>(tokens: &[&'a str]) -> Vec<&'a str> {
    tokens.iter().filter_map(name).collect()
}
fn joined(token: &&str) -> bool {
    listed(", and", token) || name(token).is_some()
}

/// What the tree has, the page that is read with its text, and what the pages name.
#[derive(Default)]
struct Check<'a> {
    tree: BTreeMap<&'a str, &'a str>,
    crates: Vec<(&'a str, &'a str)>,   // name and dependencies, as listed
    files: BTreeMap<&'a str, Set<'a>>, // what each file declares, by its path without ending
    names: Set<'a>,                    // all that a page may name
    paths: Set<'a>,                    // files and folders
    page: &'a str,
    text: &'a str,
    named: Vec<Named>,
}

impl<'a> Check<'a> {
    fn is_crate(&self, name: &str) -> bool {
        self.crates.iter().any(|c| c.0 == name)
    }
    /// The files at a place, and what they declare.
    fn at(&self, (home, module): Place) -> Vec<(&'a str, &Set<'a>)> {
        let (home, module) = (format!("crates/{home}/"), format!("/{module}/"));
        let within = |rest: &str| module == "//" || format!("/{rest}/").contains(&module);
        let files = self.files.iter().filter(|(f, _)| f.strip_prefix(&home).is_some_and(within));
        files.map(|(file, names)| (*file, names)).collect()
    }
    fn declares(&self, place: Place, name: &str) -> bool {
        self.at(place).iter().any(|(_, names)| any_like(names, name))
    }
    /// Notes a name. Its line is where it stands in the page's text.
    fn demand(&mut self, there: bool, kind: &str, token: &str, why: &str) {
        let at = (token.as_ptr() as usize).wrapping_sub(self.text.as_ptr() as usize);
        let before = self.text.get(..at).filter(|_| !there).unwrap_or("");
        let (line, why) = (before.matches('\n').count() + 1, if there { "" } else { why });
        self.named.push((self.page.into(), line, kind.into(), token.into(), why.into()));
    }

    /// A span in backticks: one name; or a command, a session's line, an expression, of which what can only be a name counts.
    fn span(&mut self, text: &str) {
        if let ["rt", "ci" | "must-fail", name, ..] = text.split_whitespace().collect::<Vec<_>>()[..] {
            self.demand(self.is_crate(name), "crate", name, "no such crate");
        }
        let parts = text.split(|c: char| c.is_whitespace() || "()[]{}<>,;\"'=&|^%#!?".contains(c));
        for part in parts.map(|p| p.trim_matches(':')) {
            let shaped = part.contains(|c: char| c.is_uppercase() || "-_*:".contains(c)) || part.contains("..");
            let other = part.starts_with('-') || part.chars().filter(|c| c.is_alphabetic()).count() < 3; // an option, a variable, a number
            if is_path(part) && !other {
                self.demand(self.is_there(part.trim_end_matches('/')), "file", part, "no such file or folder");
            } else if (shaped || !text.contains(char::is_whitespace)) && !other {
                self.demand(self.is_named(part), "name", part, "no such name");
            }
        }
    }
    /// A name, somewhere; Type::item and module::item, in one file; after crate:: in its src; Record.field. There may be * and .. in it.
    fn is_named(&self, text: &str) -> bool {
        let pattern = text.replace("..", "*");
        if let Some((record, field)) = pattern.split_once('.') {
            let (record, field) = (format!("record {record} "), format!(" {field} : "));
            let mut blocks = self.tree.values().filter(|t| t.contains(&record)).flat_map(|t| t.split("\n\n"));
            return blocks.any(|b| b.contains(&record) && b.contains(&field));
        }
        let mut parts: Vec<&str> = pattern.split("::").collect();
        let files = match parts.len() {
            1 => vec![("", &self.names)],
            _ if self.is_crate(parts[0]) => self.at((parts.remove(0), "src")),
            _ => self.files.iter().map(|(file, names)| (*file, names)).collect(),
        };
        let all = |file: &str, names| parts.iter().all(|p| any_like(names, p) || file.ends_with(&format!("/{p}")));
        listed(NOT_OURS, text) || files.iter().any(|(file, names)| all(file, names))
    }
    /// A path from the root or from some folder, its ending left out or not; NAME, NN and F stand for any name. Of what is built the crate.
    fn is_there(&self, text: &str) -> bool {
        let path = text.split_once("/out/").map_or(text, |(home, _)| home).replace("NAME", "*").replace("NN", "*").replace("/F/", "/*/");
        let forms = [path.clone(), format!("{path}.*"), format!("*/{path}"), format!("*/{path}.*")];
        text.starts_with("target/") || listed(NOT_OURS, text) || forms.iter().any(|f| any_like(&self.paths, f))
    }
    /// A link to a file, and to a heading in it.
    fn link(&mut self, target: &str) {
        let (file, anchor) = target.split_once('#').unwrap_or((target, ""));
        let parts: Vec<&str> = self.page.split('/').collect();
        let folder = parts[..parts.len().saturating_sub(file.matches("../").count() + 1)].join("/");
        let path = format!("{folder}/{}", file.trim_start_matches("../"));
        let path = if file.is_empty() { self.page } else { path.trim_start_matches('/') };
        let slug = |l: &str| l.to_lowercase().replace(' ', "-").replace(|c| !is_part(c) && c != '-', "");
        let heading = |l: &str| l.starts_with('#') && slug(l.trim_start_matches(['#', ' '])) == anchor;
        let headed = anchor.is_empty() || self.tree.get(path).is_some_and(|t| t.lines().any(heading));
        let there = target.contains("://") || self.paths.contains(path) && headed;
        self.demand(there, "link", target, "the link leads nowhere");
    }

    /// Text or a cell. home: the crate whose modules are meant where none is named.
    fn prose(&mut self, text: &[&'a str], home: &'a str) {
        for (i, token) in text.iter().enumerate() {
            let camel = |w: &[u8]| w[0].is_ascii_lowercase() && w[1].is_ascii_uppercase();
            match *token {
                "'s" | "'" => self.possessive(&text[..i], &text[i + 1..]),
                "edit" | "edits" => self.edits("", &text[i..], false),
                "stated" => self.bind(&[], &self.places(text.get(i + 2..i + 3).unwrap_or(&[]), home)),
                "`" => self.demand(false, "", token, "no backtick closes it"),
                t if t.starts_with('`') => self.span(t.trim_matches('`')),
                t if t.starts_with('(') && text[..i].ends_with(&["]"]) => self.link(t.trim_matches(PARENS)),
                t if t.starts_with('(') => self.group(&text[..i], &tokens(t.trim_matches(PARENS)), home),
                t if is_path(t) || t.contains('_') || t.as_bytes().windows(2).any(camel) => self.span(t),
                _ => {}
            }
        }
    }
    /// crate, Module; crate, specs; Module, Module; crate, each kind's module
    fn places(&self, tokens: &[&'a str], home: &'a str) -> Vec<Place<'a>> {
        let words: Vec<&str> = tokens.iter().step_by(2).copied().collect();
        let commas = tokens.iter().skip(1).step_by(2).all(|t| *t == ",");
        let inside = |w: &&str| is_module(w) || w.starts_with("specs") || w.starts_with("proofs");
        match (tokens, &words[..]) {
            ([home, ",", "each", "kind", "'s", "module"], _) => vec![(home, "specs")],
            (_, list) if commas && list.iter().all(|m| is_module(m)) => list.iter().map(|m| (home, *m)).collect(),
            (_, [home, list @ ..]) if commas && list.iter().all(inside) => list.iter().map(|m| (*home, *m)).collect(),
            _ => vec![],
        }
    }
    /// The places are there, each name is declared in one of them, and each of several declares one of the names.
    fn bind(&mut self, names: &[&str], places: &[Place<'a>]) {
        for place @ (home, module) in places {
            self.demand(self.is_crate(home), "crate", home, "no such crate");
            self.demand(!self.at(*place).is_empty(), "module", module, &format!("no such module in {home}"));
            let one = places.len() == 1 || names.is_empty() || names.iter().any(|n| self.declares(*place, n));
            self.demand(one, "", module, "declares none of the names before it");
        }
        let said: Vec<String> = places.iter().map(|(home, module)| format!("{home}, {module}")).collect();
        for name in names.iter().filter(|_| !places.is_empty()) {
            let there = places.iter().any(|p| self.declares(*p, name));
            let kind = Some(places[0].0).filter(|c| [DEFINITIONS, THEOREMS].contains(c));
            self.demand(there, kind.unwrap_or(""), name, &format!("not declared in {}", said.join("; ")));
        }
    }
    /// Parentheses: (model, Ring) after names, (`name`: model, Ring), (stated in Module: `name`); others say no place.
    fn group(&mut self, before: &[&'a str], inner: &[&'a str], home: &'a str) {
        self.prose(inner, home);
        let (mut places, mut last) = (vec![], vec![]);
        for part in inner.split(|t| *t == ";") {
            let colon = part.iter().position(|t| *t == ":").map(|i| i + 1);
            let lead = colon.unwrap_or(part.iter().take_while(|t| joined(t)).count());
            last = Some(names(&part[..lead])).filter(|n| !n.is_empty()).unwrap_or(last);
            match part {
                ["stated", "in", module, list @ ..] => self.bind(&names(list), &[(home, module)]),
                [DEFINITIONS | THEOREMS] => places.push((part[0], "")),
                _ if lead == 0 => places.extend(self.places(part, home)),
                _ => self.bind(&last, &self.places(&part[lead..], home)),
            }
        }
        let apart = |t: &&str| !joined(t) && (*t != ";" || places.len() == 1);
        self.bind(&names(before.rsplit(apart).next().unwrap_or(before)), &places);
    }

    /// model's `Calls`, theory's Passed, laws' `image_length`; model's an_edit and another_edit, reader's edits an_edit
    fn possessive(&mut self, before: &[&str], rest: &[&str]) {
        let home = before.last().map_or("", |t| t.trim_matches('`'));
        let article = before.iter().rev().nth(1).is_some_and(|t| listed("a an the each its", t));
        let rest = if self.is_crate(home) && !article { rest } else { &[] };
        self.edits(home, rest, false);
        for name in rest.iter().take(1).filter_map(|w| name(w).or(Some(*w).filter(|w| is_module(w)))) {
            let there = !self.at((home, name)).is_empty() || self.declares((home, ""), name);
            self.demand(there, "", name, &format!("neither a module of {home} nor declared in it"));
        }
    }
    /// A list of edits, a, b (crate) and c, or of crates that have some; in running text as far as the words can only be names.
    fn edits(&mut self, home: &str, list: &[&str], all: bool) {
        for (i, token) in list.iter().enumerate() {
            let own = list.get(i + 1).filter(|t| t.starts_with('('));
            match *token {
                "the" if all => break, // the kinds' edits
                "others" if all => self.edit(home, "*", list.split(|t| *t == ",").count()),
                t if listed("must-fail edit edits , and", t) || t.starts_with('(') => {}
                t if all && home.is_empty() => self.edit(t, "*", 0),
                t if all || t.contains('_') && t.starts_with(is_part) => self.edit(own.map_or(home, |t| t.trim_matches(PARENS)), t, 0),
                _ => break,
            }
        }
    }
    /// An edit of a crate, or of any for ""; for * more than so many.
    fn edit(&mut self, home: &str, edit: &str, few: usize) {
        let any = if home.is_empty() { "*" } else { home };
        let pattern = format!("crates/{any}/must-fail/{edit}.edit");
        let many = || self.paths.iter().filter(|p| like(&pattern, p)).count();
        let there = self.paths.contains(&pattern[..]) || many() > few;
        let token = if edit == "*" { home } else { edit };
        self.demand(there, "edit", token, &format!("no such must-fail edit in crates/{any}"));
    }

    /// A row of a table. Three columns of docs/CLAIMS.md are read whole.
    fn row(&mut self, heads: &[&str], row: &'a str) {
        let cells: Vec<Vec<&str>> = cells(row).iter().map(|c| tokens(c)).collect();
        let first = names(&cells[0]);
        let of_crates = cells[0].iter().all(joined) && first.iter().all(|c| self.is_crate(c));
        let home = first.first().filter(|_| of_crates).unwrap_or(&THEOREMS);
        self.demand(cells.len() == heads.len(), "", row, "not as many cells as in the table's head");
        for (cell, column) in cells.iter().zip(heads) {
            self.prose(cell, home);
            let mut own = THEOREMS;
            for part in cell.split(|t| *t == ";") {
                let colon = part.iter().rposition(|t| *t == ":");
                let (head, list) = colon.map_or(("", part), |i| (part[0], &part[i + 1..]));
                match *column {
                    "guarded by must-fail edits" => self.edits(head, list, true),
                    "definitions (model)" => list.split(|t| *t == ",").for_each(|item| self.definition(head, item)),
                    "where" if heads[0] == "theorem" => own = self.theorems(&first, part, own),
                    _ if list.len() > 2 => self.bind(&[], &self.places(list, home)),
                    _ => {}
                }
            }
        }
    }
    /// name, or Module: name, or crate: Module. More than a word is prose.
    fn definition(&mut self, head: &'a str, item: &[&'a str]) {
        match item {
            [module] if self.is_crate(head) => self.bind(&[], &[(head, module)]),
            [name, rest @ ..] if rest.iter().all(|t| t.starts_with('(')) => self.bind(&[name], &[(DEFINITIONS, head)]),
            _ => self.demand(!item.is_empty(), "", head, "not followed by a name"),
        }
    }
    /// Module; crate, Module; edits edit, edit (crate); crate's edit edit. Gives the crate whose edits may follow.
    fn theorems(&mut self, names: &[&str], part: &[&'a str], home: &'a str) -> &'a str {
        let place = part.split(|t| t.starts_with('(')).next().unwrap_or(part);
        let places = self.places(place, THEOREMS);
        let unread = places.is_empty() && !(part.is_empty() && names.is_empty());
        match part {
            [owner, "'s" | "'", list @ ..] => self.edits(owner, list, true),
            ["edit" | "edits", list @ ..] => self.edits(home, list, true),
            _ if unread => self.demand(false, "", part.first().or(names.first()).unwrap(), "neither a place nor edits"),
            _ => places.iter().for_each(|p| self.bind(names, &[*p])),
        }
        places.first().map_or(home, |p| p.0)
    }

    /// Blocks between blank lines: code, tables and text.
    fn page(&mut self) {
        let mut fenced = false;
        for block in self.text.split("\n\n").map(|b| b.trim_matches('\n')) {
            let code = fenced || block.starts_with("```");
            fenced ^= block.matches("```").count() % 2 == 1;
            let mut lines = block.lines();
            if code && self.page == PICTURED {
                let crates = block.split(['`', ' ', '\n', '←']).filter(|w| !w.is_empty());
                crates.for_each(|c| self.demand(self.is_crate(c), "crate", c, "no such crate"));
            } else if code || block.starts_with("    ") {
                lines.for_each(|l| self.span(l));
            } else if block.starts_with('|') {
                let heads = cells(lines.next().unwrap());
                lines.skip(1).for_each(|l| self.row(&heads, l));
            } else {
                self.demand(!block.contains("\n|"), "", block, "a table needs a blank line before it");
                self.prose(&tokens(block), THEOREMS);
            }
        }
    }
    /// Each crate has a folder, each folder a line, and what a crate depends on stands on earlier lines.
    fn crates(&mut self) {
        for (i, (name, needs)) in self.crates.clone().iter().enumerate() {
            let folder = self.paths.contains(&format!("crates/{name}")[..]);
            self.demand(folder, "", name, "no such folder in crates");
            for need in needs.split_whitespace() {
                let earlier = self.crates[..i].iter().any(|c| c.0 == need) || listed(NOT_OURS, need);
                self.demand(earlier, "", need, &format!("{name} depends on it, and no earlier line has it"));
            }
        }
        for folder in self.paths.clone().iter().filter_map(|p| p.strip_prefix("crates/")) {
            let once = folder.contains('/') || self.crates.iter().filter(|c| c.0 == folder).count() == 1;
            self.demand(once, "", folder, "a folder without a line, or with two");
        }
    }

    /// The page has the floors of crates.txt, in this order, and on each of them the same crates in the same order.
    fn floors(&mut self) {
        let (mut here, mut open) = (vec![], false);
        for line in self.text.lines() {
            let title = line.strip_prefix("### ").filter(|t| t.starts_with("Floor "));
            open = title.is_some() || open && !line.starts_with('#');
            let first = if open && line.starts_with('|') { cells(line)[0] } else { "" };
            here.extend(title.into_iter().chain(names(&tokens(first))));
        }
        let entry = |l: &&str| l.starts_with("# Floor ") || l.contains(':') && !l.starts_with('#');
        let plain = |l: &'a str| l.strip_prefix("# ").unwrap_or(l.split([':', ' ']).next().unwrap());
        let there: Vec<&str> = self.tree[LISTED].lines().filter(entry).map(plain).collect();
        let same = here.iter().zip(&there).take_while(|(a, b)| a == b).count();
        here.iter().for_each(|e| self.demand(true, "placed", e, ""));
        let [a, b] = [&here, &there].map(|all| all.get(same).map_or("nothing more", |e| *e));
        self.demand(a == b && same > 0, "", a, &format!("{LISTED} has `{b}` here"));
    }
}

/// All that the pages name.
fn check(tree: &Tree) -> Vec<Named> {
    let mut check = Check::default();
    for (path, text) in tree {
        let (stem, names) = (path.rsplit_once('.').map_or(&path[..], |(stem, _)| stem), declared(path, text));
        let folders = path.match_indices('/').map(|(i, _)| &path[..i]);
        check.paths.extend(folders.chain([&path[..]]));
        check.names.extend(names.iter().copied().chain(stem.split('/')));
        check.files.insert(stem, names);
        check.tree.insert(path, text);
    }
    let lines = tree[LISTED].lines().filter(|l| !l.starts_with('#'));
    check.crates = lines.filter_map(|l| l.split_once(':').map(|(head, needs)| (head.split(' ').next().unwrap(), needs))).collect();
    for (page, text) in tree.iter().filter(|(path, _)| path.ends_with(".md") || *path == LISTED) {
        (check.page, check.text) = (page, text);
        match page.rsplit_once('/').map_or("", |(folder, _)| folder) {
            _ if page == LISTED => check.crates(),
            "" | "docs" if !TOLD.contains(&page.as_str()) => check.page(),
            _ => text.split("](").skip(1).for_each(|t| check.link(t.split(')').next().unwrap())),
        }
        if page == PICTURED {
            check.floors();
        }
    }
    check.named
}

/// The tree with one change that is to be refused.
fn changed(tree: &Tree, way: &str, (page, _, kind, token, _): &Named) -> Option<Tree> {
    let (path, from, to) = match (way, &kind[..]) {
        ("left out of the page", "placed") => (&page[..], format!("`{token}`"), String::new()),
        ("moved to the floor before", "placed") => {
            let lines: Vec<&str> = tree[LISTED].lines().collect();
            let own = lines.iter().position(|l| l.split([':', ' ']).next() == Some(token))?;
            let title = lines[..own].iter().rposition(|l| l.starts_with("# Floor "))?;
            let moved = [&lines[own..=own], &lines[title..own]].concat();
            (LISTED, lines[title..=own].join("\n"), moved.join("\n"))
        }
        ("renamed", _) if !LISTED.contains(&token[..]) && !token.ends_with(".md") => ("", token.clone(), format!("{token}Gone")),
        _ => return None,
    };
    let ours = |p: &str| p == path || path.is_empty() && !p.ends_with(".md");
    let swap = |p: &str, t: &str| if ours(p) { t.replace(&from, &to) } else { t.to_string() };
    let other: Tree = tree.iter().map(|(p, t)| (swap(p, p), swap(p, t))).collect();
    (other != *tree).then_some(other)
}

/// Changes a name of each kind in each way, and asks for the failure on its page that tells it. Renamed: everywhere but on pages.
fn self_test(tree: &Tree, named: &[Named]) -> bool {
    let kinds: BTreeSet<&str> = named.iter().map(|n| &n.2[..]).filter(|k| !k.is_empty()).collect();
    let ways = ["renamed", "left out of the page", "moved to the floor before"];
    let (mut changes, mut missed) = (0, 0);
    for (kind, way) in kinds.iter().flat_map(|k| ways.map(|way| (k, way))) {
        let mut of_kind = named.iter().rev().filter(|n| n.2 == *kind);
        if let Some((n, other)) = of_kind.find_map(|n| Some((n, changed(tree, way, n)?))) {
            let placed = |f: &Named| *kind == "placed" && format!("`{}`, {}", f.3, f.4).contains(&format!("`{}`", n.3));
            let told = |f: &Named| f.0 == n.0 && !f.4.is_empty() && (f.2 == n.2 && f.3 == n.3 || placed(f));
            changes += 1;
            if !check(&other).iter().any(told) {
                println!("{}: `{}`, {kind}: {way}, and not refused", n.0, n.3);
                missed += 1;
            }
        }
    }
    let result = if missed == 0 { "each refused" } else { "not each refused" };
    println!("pages: self-test, {changes} changes, {result}");
    missed == 0
}

fn main() {
    let args: Vec<String> = std::env::args().skip(1).collect();
    let root = args.iter().skip_while(|a| *a != "--root").nth(1).map_or(".", |r| r);
    let mut tree = Tree::new();
    load(root, "", &mut tree).expect("the tree is read");
    let named = check(&tree);
    let failed = named.iter().filter(|n| !n.4.is_empty());
    let failures: BTreeMap<_, _> = failed.map(|n| ((&n.0, n.1, &n.3), &n.4)).collect();
    for ((page, line, token), why) in &failures {
        println!("{page}:{line}: `{token}`: {why}");
    }
    let test = args.iter().any(|a| a == "--self-test");
    if !failures.is_empty() || test && !self_test(&tree, &named) {
        std::process::exit(1);
    }
    let names: BTreeSet<_> = named.iter().filter(|n| !n.2.is_empty()).map(|n| (&n.0, &n.3)).collect();
    let (names, pages) = (names.len(), tree.keys().filter(|p| p.ends_with(".md")).count());
    let floors = named.iter().filter(|n| n.2 == "placed" && n.3.starts_with("Floor ")).count();
    let crates = named.iter().filter(|n| n.2 == "placed").count() - floors;
    if !test {
        println!("pages: {names} names in {pages} pages, all there; {crates} crates on {floors} floors");
    }
}
