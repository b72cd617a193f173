//! Counts the messages of a log, by level and by who speaks: report TABLES LOG. The tables are those of examples/log.l.
#[path = "../../../drivers/lx.rs"]
mod lx;

use std::collections::{BTreeMap, BTreeSet};

fn main() -> Result<(), Box<dyn std::error::Error>> {
    let words: Vec<String> = std::env::args().collect();
    let tables = lx::Tables::read(&std::fs::read(&words[1])?)?;
    let log = std::fs::read(&words[2])?;
    let kinds = [tables.kind("LEVEL"), tables.kind("WHO")];
    let (mut counts, mut wrong) = ([BTreeMap::new(), BTreeMap::new()], BTreeSet::new());
    for item in tables.scan(&log) {
        if item.kind == lx::Kind::Echo {
            wrong.insert(item.line);
        }
        for (kind, count) in kinds.iter().zip(&mut counts) {
            if *kind == Some(item.kind) {
                *count.entry(String::from_utf8_lossy(item.text)).or_insert(0) += 1;
            }
        }
    }
    for (name, count) in counts.iter().flatten() {
        println!("{count:6} {name}");
    }
    println!("{:6} lines of no form", wrong.len());
    Ok(())
}
