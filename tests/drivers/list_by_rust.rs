//! list_by_rust TABLES FILE..: the listing of files by drivers/lx.rs, each line with the column before it.
//! list_by_rust --calls TABLES: nothing, or which of the other calls isn't as it should be.
//! list_by_rust --damage CASES FILE: what it says of each text of tables in CASES, which has its length as four bytes before it.
#[path = "../../drivers/lx.rs"]
mod lx;

use lx::{Item, Kind, Tables};
use std::io::{self, BufWriter, Write};

fn shown(text: &[u8]) -> String {
    text.iter()
        .map(|&byte| match byte {
            b'\\' => "\\\\".to_string(),
            b' '..=b'~' => char::from(byte).to_string(),
            _ => format!("\\x{byte:02X}"),
        })
        .collect()
}

fn write_item(out: &mut impl Write, tables: &Tables, file: usize, item: &Item) -> io::Result<()> {
    let kind = match item.kind {
        Kind::Name(place) => format!("T {}", tables.kinds[place as usize]),
        Kind::Number(number) => format!("T {number}"),
        Kind::Echo => "E -".to_string(),
    };
    writeln!(out, "{} {file} {kind} {} {} {} {}", item.column, item.line, item.start, item.text.len(), shown(item.text))
}

fn list(out: &mut impl Write, tables: &Tables, files: &[Vec<u8>]) -> io::Result<()> {
    for (number, file) in files.iter().enumerate() {
        for item in tables.scan(file) {
            write_item(out, tables, number, &item)?;
        }
    }
    Ok(())
}

fn damage(out: &mut impl Write, mut texts: &[u8], files: &[Vec<u8>]) -> io::Result<()> {
    while let [a, b, c, d, rest @ ..] = texts {
        let (text, behind) = rest.split_at(u32::from_le_bytes([*a, *b, *c, *d]) as usize);
        texts = behind;
        match Tables::read(text) {
            Err(error) => writeln!(out, "= refused at line {}", error.line)?,
            Ok(tables) => {
                writeln!(out, "= taken")?;
                list(out, &tables, files)?;
            }
        }
    }
    Ok(())
}

/// Tries kinds and begin by the tables of all_steps.l, and prints what isn't so.
fn calls(tables: &Tables) {
    let (id, text) = (tables.kind("ID"), b"ab\ncd  e");
    let mut scanner = tables.scan(text);
    scanner.begin(3);
    scanner.begin(2);
    let first = scanner.next().map(|item| (Some(item.kind), item.text, item.start, item.line, item.column));
    if first != Some((id, b"cd", 3, 2, 1)) {
        println!("the first item is {first:?}"); // OUT skips the first line, and then IN is begun
    }
    scanner.begin(0);
    let kinds: Vec<Kind> = scanner.map(|item| item.kind).collect();
    if kinds != [Kind::Echo, Kind::Echo, Kind::Name(1)] || tables.kind("NONE").is_some() {
        println!("behind begin come {kinds:?}");
    }
}

fn main() -> Result<(), Box<dyn std::error::Error>> {
    let words: Vec<String> = std::env::args().skip(1).collect();
    let is_damage = words[0] == "--damage";
    if words[0] == "--calls" {
        calls(&Tables::read(&std::fs::read(&words[1])?)?);
        return Ok(());
    }
    let files = words[usize::from(is_damage)..].iter().map(std::fs::read).collect::<Result<Vec<_>, _>>()?;
    let mut out = BufWriter::new(io::stdout());
    if is_damage {
        damage(&mut out, &files[0], &files[1..])?;
    } else {
        list(&mut out, &Tables::read(&files[0])?, &files[1..])?;
    }
    Ok(out.flush()?)
}
