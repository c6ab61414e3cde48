//! `transcode TABLE ROOT < LINES`: writes each line of JSON as canonical JSON, or why it is refused.
use smithy_transcode::{Source, Table, Target};
use std::error::Error;
use std::io::{self, BufRead, Write};

fn main() -> Result<(), Box<dyn Error>> {
    let mut arguments = std::env::args().skip(1);
    let (table, root) = match (arguments.next(), arguments.next()) {
        (Some(table), Some(root)) => (table, root),
        _ => return Err("usage: transcode TABLE ROOT".into()),
    };
    let mut table = Table::accept(&std::fs::read(table)?)?;
    let mut body = Vec::new();
    let mut out = io::stdout().lock();
    for line in io::stdin().lock().split(b'\n') {
        match table.transcode(&root, Source::Json, &line?, Target::Json, &mut body) {
            Ok(()) => out.write_all(&body)?,
            Err(refusal) => write!(out, "{refusal}")?,
        }
        out.write_all(b"\n")?;
    }
    Ok(())
}
