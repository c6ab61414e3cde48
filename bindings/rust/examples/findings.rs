//! `findings TABLE ROOT < LINES`: writes what is found in each line of JSON, behind the line's number, and where its value first differs
//! from that of the line before.
use smithy_transcode::{Source, Table};
use std::error::Error;
use std::io::{self, BufRead, Write};

fn main() -> Result<(), Box<dyn Error>> {
    let mut arguments = std::env::args().skip(1);
    let (table, root) = match (arguments.next(), arguments.next()) {
        (Some(table), Some(root)) => (table, root),
        _ => return Err("usage: findings TABLE ROOT".into()),
    };
    let mut table = Table::accept(&std::fs::read(table)?)?;
    let mut before = Vec::new();
    let mut out = io::stdout().lock();
    for (number, line) in io::stdin().lock().split(b'\n').enumerate() {
        let line = line?;
        match table.findings(&root, Source::Json, &line) {
            Ok(findings) => {
                for finding in findings.iter() {
                    writeln!(out, "{number} {} {}", finding.path, finding.kind)?;
                }
            }
            Err(refusal) => writeln!(out, "{number} {refusal}")?,
        }
        if let Ok(Some(path)) = table.compare(&root, Source::Json, &before, Source::Json, &line) {
            writeln!(out, "{number} differs at {path}")?;
        }
        before = line;
    }
    Ok(())
}
