//! count_by_rust TABLES FILE: counts tokens, and sums their lengths and lines, by drivers/lx.rs.
#[path = "../drivers/lx.rs"]
mod lx;

fn main() -> Result<(), Box<dyn std::error::Error>> {
    let words: Vec<String> = std::env::args().collect();
    let (tables, text) = (lx::Tables::read(&std::fs::read(&words[1])?)?, std::fs::read(&words[2])?);
    let (mut tokens, mut lengths, mut lines) = (0, 0, 0);
    for item in tables.scan(&text) {
        tokens += 1;
        lengths += item.text.len();
        lines += item.line;
    }
    println!("{tokens} {lengths} {lines}");
    Ok(())
}
