//! lx.rs: scans by tables that `lx gen` printed, read at run time. One file for rustc 1.63 and later, without crates and without unsafe code.
//!
//!     mod lx;
//!     let tables = lx::Tables::read(&std::fs::read("words.tab")?)?;     // lx::Error says by line and cause why a text is no tables
//!     let id = tables.kind("ID");                                       // Some(Kind::Name(..)), or None where no kind has the name
//!     for item in tables.scan(&std::fs::read("words.txt")?) {
//!         if item.kind == lx::Kind::Echo {                              // a byte that no rule takes, or the text of an ECHO
//!             println!("{}:{}: unexpected {:?}", item.line, item.column, item.text);
//!         } else if Some(item.kind) == id {
//!             println!("{} at {}", String::from_utf8_lossy(item.text), item.start);
//!         }
//!     }
//!
//! A `Scanner` is an iterator; its `begin` goes over to a start condition. Lines and columns count from 1, and columns are counted in bytes.
#![allow(dead_code)]
use std::{error, fmt};

/// The kind of an item: the one with this place among `Tables::kinds`, the number that its action returns, or an echo.
#[derive(Clone, Copy, Debug, PartialEq, Eq, Hash)]
pub enum Kind { Name(u32), Number(u32), Echo }

/// A token or an echo: its bytes, how many bytes stand before it, its line and its column.
#[derive(Clone, Copy, Debug, PartialEq, Eq)]
pub struct Item<'t> { pub kind: Kind, pub text: &'t [u8], pub start: usize, pub line: usize, pub column: usize }

/// Why a text of tables is refused, and the line of it, from 1.
#[derive(Clone, Debug, PartialEq, Eq)]
pub struct Error { pub line: usize, pub cause: String }

impl fmt::Display for Error {
    fn fmt(&self, f: &mut fmt::Formatter<'_>) -> fmt::Result { write!(f, "line {}: {}", self.line, self.cause) }
}
impl error::Error for Error {}

/// A step of an action, or its end. After the return of a kind that isn't Echo no end is looked for.
#[derive(Clone, Copy)]
enum Step { Begin(u16), Give(Kind), End }

/// Tables, in which states are counted from 1, and 0 is none. After the last one all come again, for matches in which a newline was: so no byte is
/// asked whether it is one. `kinds` are the names of the kinds.
pub struct Tables {
    /// The start of the column of each byte's class, which has the next state for each state. The newline has a column of its own.
    columns: [u32; 256],
    next: Vec<u16>,
    /// For each state the place of its action, or 0; below 0, where the rule ends with `$`. And the kind, where to give it is all, or Echo.
    accepts: Vec<(i32, Kind)>,
    /// The actions one after the other; first that of a byte that no rule takes.
    steps: Vec<Step>,
    /// For each condition the state in which a match begins, and the one at line begin.
    starts: Vec<[u16; 2]>,
    pub kinds: Vec<String>,
}

impl Tables {
    pub fn read(text: &[u8]) -> Result<Tables, Error> {
        let text = String::from_utf8_lossy(text);
        let mut lines = Lines { rest: &text, number: 0 };
        let version = lines.after("lx-tables ").or_else(|_| lines.refuse("this is no text of tables"))?;
        if version != "2" { return lines.refuse("the tables are of another version: `lx up` prints version 2"); }
        let steps = vec![Step::Give(Kind::Echo), Step::End];
        let mut tables = Tables { columns: [0; 256], next: vec![], accepts: vec![], steps, starts: vec![], kinds: vec![] };
        for _ in 0..lines.count("conditions ", 64)? {
            let (plain, at_line_begin) = lines.after("start ")?.split_once(' ').ok_or_else(|| lines.error("two states are due"))?;
            tables.starts.push([lines.number(plain, 16_512)? as u16 + 1, lines.number(at_line_begin, 16_512)? as u16 + 1]);
        }
        for _ in 0..lines.count("kinds ", 4_096)? { tables.read_kind(&mut lines)?; }
        let rules = (0..lines.count("rules ", 4_096)?).map(|_| tables.read_rule(&mut lines)).collect::<Result<Vec<_>, _>>()?;
        let classes = lines.count("classes ", 256)?;
        tables.read_classes(&mut lines, classes)?;
        let states = lines.count("states ", 16_512)?;
        if tables.starts.iter().flatten().max().map_or(true, |&start| usize::from(start) > states) {
            return lines.refuse("a condition has no start among the states, or there is none");
        }
        let height = 2 * states + 1;
        (tables.next, tables.accepts) = (vec![0; (classes + 1) * height], vec![(0, Kind::Echo); height]);
        for state in 1..=states { tables.read_state(&mut lines, state, classes, &rules)?; }
        for &start in tables.starts.iter().flatten() { tables.accepts[usize::from(start)].1 = Kind::Echo; } // a match isn't empty
        tables.columns[usize::from(b'\n')] = classes as u32;
        tables.columns.iter_mut().for_each(|column| *column *= height as u32);
        if !lines.after("end")?.is_empty() { return lines.refuse("the line's end is due"); }
        lines.number += 1;
        if !lines.rest.is_empty() { return lines.refuse("nothing may follow the end"); }
        let column = |class: usize| &tables.next[class * height..][..=states];
        if (1..classes).any(|one| (0..one).any(|other| column(one) == column(other))) { return lines.refuse("two classes lead to the same states"); }
        if (1..tables.kinds.len()).any(|one| tables.kinds[..one].contains(&tables.kinds[one])) { return lines.refuse("two kinds have the same name"); }
        Ok(tables)
    }
    fn read_kind(&mut self, lines: &mut Lines) -> Result<(), Error> {
        let name = lines.after("kind ")?;
        if name.is_empty() || name.starts_with(|c: char| c.is_ascii_digit()) || !name.chars().all(|c| c.is_ascii_alphanumeric() || c == '_') {
            return lines.refuse("a name is due");
        }
        self.kinds.push(name.to_string());
        Ok(())
    }
    /// The rule's action, as states accept it.
    fn read_rule(&mut self, lines: &mut Lines) -> Result<(i32, Kind), Error> {
        let mut fields = lines.after("rule ")?.split(' ');
        let ends_line = lines.number(fields.next().unwrap_or(""), 2)? == 1;
        let (first, mut is_open) = (self.steps.len(), true);
        for field in fields {
            let step = match (field.get(..1), field.get(1..).unwrap_or("")) {
                (Some("e"), "") if is_open => Step::Give(Kind::Echo),
                (Some("b"), condition) if is_open => Step::Begin(lines.number(condition, self.starts.len())? as u16),
                (Some("k"), kind) if is_open => Step::Give(Kind::Name(lines.number(kind, self.kinds.len())? as u32)),
                (Some("n"), number) if is_open => Step::Give(Kind::Number(lines.number(number, 1 << 31)? as u32)),
                _ => return lines.refuse("a step is due, or nothing behind a return"),
            };
            is_open = matches!(step, Step::Begin(_) | Step::Give(Kind::Echo));
            self.steps.push(step);
        }
        self.steps.push(Step::End);
        let place = if let Step::End = self.steps[first] { NOTHING } else { first as i32 };
        let kind = match self.steps[first] { Step::Give(kind) if !ends_line => kind, _ => Kind::Echo };
        Ok((if ends_line { -place } else { place }, kind))
    }
    fn read_classes(&mut self, lines: &mut Lines, count: usize) -> Result<(), Error> {
        let (mut byte, mut last, mut seen) = (0, count, 0);
        for range in lines.after("class ")?.split(' ') {
            let (bytes, class) = range.split_once(':').unwrap_or((range, ""));
            let (low, high) = bytes.split_once('-').unwrap_or((bytes, ""));
            let (low, high, class) = (lines.number(low, 256)?, lines.number(high, 256)?, lines.number(class, count)?);
            if low != byte || high < low || class == last || class > seen {
                return lines.refuse("the next bytes are due, in another class, or the next new one");
            }
            self.columns[low..=high].fill(class as u32);
            (byte, last, seen) = (high + 1, class, seen + usize::from(class == seen));
        }
        if (byte, seen) == (256, count) { Ok(()) } else { lines.refuse("a byte has no class, or a class no byte") }
    }
    fn read_state(&mut self, lines: &mut Lines, state: usize, classes: usize, rules: &[(i32, Kind)]) -> Result<(), Error> {
        let (height, states, newline, mut least) = (self.accepts.len(), self.accepts.len() / 2, self.columns[usize::from(b'\n')] as usize, 0);
        let mut fields = lines.after("state ")?.split(' ');
        let accepted = match fields.next() { Some("-") => (0, Kind::Echo), rule => rules[lines.number(rule.unwrap_or(""), rules.len())?] };
        (self.accepts[state], self.accepts[states + state].0) = (accepted, accepted.0);
        for field in fields {
            let (class, next) = field.split_once(':').unwrap_or((field, ""));
            let (class, next) = (lines.number(class, classes)?, lines.number(next, states)?);
            if class < least { return lines.refuse("a greater class is due"); }
            let (column, behind) = (class * height, (states + next + 1) as u16);
            (self.next[column + state], self.next[column + states + state]) = (next as u16 + 1, behind);
            if class == newline { for from in [state, states + state] { self.next[classes * height + from] = behind; } }
            least = class + 1;
        }
        Ok(())
    }

    /// The kind with this name.
    pub fn kind(&self, name: &str) -> Option<Kind> { self.kinds.iter().position(|kind| kind == name).map(|place| Kind::Name(place as u32)) }
    pub fn scan<'t>(&'t self, text: &'t [u8]) -> Scanner<'t> {
        let last = Item { kind: Kind::Echo, text: &text[..0], start: 0, line: 1, column: 1 };
        Scanner { tables: self, size: text.len(), rest: text, line: 1, line_left: text.len(), starts: &self.starts[0], pending: NOTHING, last }
    }
    /// Walks once more over what was walked, for the last place where a token ends: its action, and what is left after it.
    #[cold]
    fn look_back<'t>(&self, mut state: usize, rest: &'t [u8], left: usize) -> (i32, &'t [u8]) {
        let (mut action, mut length) = (0, 1);
        for (place, &byte) in rest[..rest.len() - left].iter().enumerate() {
            state = usize::from(self.next[self.columns[usize::from(byte)] as usize + state]);
            let accepted = self.accepts[state].0;
            let end = place + usize::from(accepted > 0);
            if accepted != 0 && end > 0 { (action, length) = (accepted.abs(), end); }
        }
        (action, &rest[length..])
    }
}

/// The lines of a text of tables, and the number of the last one that was taken.
struct Lines<'a> { rest: &'a str, number: usize }

impl<'a> Lines<'a> {
    fn error(&self, cause: &str) -> Error { Error { line: self.number, cause: cause.to_string() } }
    fn refuse<T>(&self, cause: &str) -> Result<T, Error> { Err(self.error(cause)) }
    /// Takes the next line, which begins with a word, and returns what follows the word.
    fn after(&mut self, word: &str) -> Result<&'a str, Error> {
        self.number += 1;
        let (line, rest) = self.rest.split_once('\n').ok_or_else(|| self.error("the text is cut off"))?;
        self.rest = rest;
        line.strip_prefix(word).ok_or_else(|| self.error(&format!("a line that begins with \"{word}\" is due")))
    }
    fn number(&self, digits: &str, bound: usize) -> Result<usize, Error> {
        let is_decimal = digits.bytes().all(|digit| digit.is_ascii_digit()) && (digits == "0" || !digits.starts_with('0'));
        let number = digits.parse().ok().filter(|&number| is_decimal && number < bound);
        number.ok_or_else(|| self.error(&format!("a number below {bound} is due, and not \"{digits}\"")))
    }
    fn count(&mut self, word: &str, most: usize) -> Result<usize, Error> { self.after(word).and_then(|digits| self.number(digits, most + 1)) }
}

/// The items of a text, one after the other.
pub struct Scanner<'t> {
    tables: &'t Tables,
    /// The text's length; what is left of it at the next match, the line there, how much was left where that begins, and the condition's starts.
    size: usize, rest: &'t [u8], line: usize, line_left: usize, starts: &'t [u16; 2],
    /// The place of the steps that are left of the last match's action, or NOTHING; and that match where some are left.
    pending: i32,
    last: Item<'t>,
}

const NOTHING: i32 = 1; // the place of an action's end, and of an action without a step

impl<'t> Scanner<'t> {
    /// Goes over to a start condition by its number, in which the next match begins; 0 is INITIAL. Where there is none of this number it stays.
    pub fn begin(&mut self, condition: usize) { if let Some(starts) = self.tables.starts.get(condition) { self.starts = starts; } }
    /// Does the steps from a place on, up to one that gives an item: its kind.
    #[inline(always)]
    fn perform(&mut self, mut place: i32) -> Option<Kind> {
        while let Step::Begin(condition) = self.tables.steps[place as usize] {
            self.begin(usize::from(condition));
            place += 1;
        }
        let given = if let Step::Give(kind) = self.tables.steps[place as usize] { Some(kind) } else { None };
        self.pending = if given == Some(Kind::Echo) { place + 1 } else { NOTHING };
        given
    }
}

impl<'t> Iterator for Scanner<'t> {
    type Item = Item<'t>;
    /// It has few jumps, and few values that change, so that these stay in registers where it is inlined.
    #[inline(always)]
    fn next(&mut self) -> Option<Item<'t>> {
        if self.pending != NOTHING {
            if let Some(kind) = self.perform(self.pending) { return Some(Item { kind, ..self.last }); }
        }
        while !self.rest.is_empty() {
            let (tables, rest, start) = (self.tables, self.rest, usize::from(self.starts[usize::from(self.rest.len() == self.line_left)]));
            let (mut state, mut left) = (start, rest);
            while let [byte, behind @ ..] = left {
                let next = tables.next.get(tables.columns[usize::from(*byte)] as usize + state);
                if let Some(&next @ 1..) = next { (state, left) = (usize::from(next), behind) } else { break }
            }
            let (mut place, kind) = tables.accepts[state];
            if kind == Kind::Echo && (place <= 0 || left.len() == rest.len()) {
                (place, left) = tables.look_back(start, rest, left.len());
                state = usize::MAX; // the byte that no rule takes may be a newline, too
            }
            let (text, start, column) = (&rest[..rest.len() - left.len()], self.size - rest.len(), self.line_left - rest.len() + 1);
            let found = Item { kind, text, start, line: self.line, column };
            self.rest = left;
            if kind != Kind::Echo { return Some(found); }
            if state > tables.accepts.len() / 2 {
                let newlines = text.iter().enumerate().filter(|(_, &byte)| byte == b'\n');
                for (place, _) in newlines { (self.line, self.line_left) = (self.line + 1, rest.len() - place - 1); }
            }
            if place == NOTHING { continue; }
            if let Some(kind) = self.perform(place) {
                if self.pending != NOTHING { self.last = found; }
                return Some(Item { kind, ..found });
            }
        }
        None
    }
}
