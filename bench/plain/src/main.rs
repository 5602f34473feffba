// The yardstick: the job of chartcheck in plain Rust, from the formats in docs/. It proves nothing.
mod chart;
mod property;
mod refusal;
mod sheet;

use std::fs::File;
use std::io::{self, Read, Write};

use chart::Chart;
use property::Names;
use refusal::Refusal;
use sheet::Sheet;

const FILE_BYTES: u64 = 5133;
const INPUT_BYTES: u64 = 16384;

// The first bytes of the chart file; a missing file is empty.
fn read_file() -> io::Result<Vec<u8>> {
    let mut bytes = Vec::with_capacity(FILE_BYTES as usize);
    match File::open("chart.mch") {
        Ok(file) => file.take(FILE_BYTES).read_to_end(&mut bytes)?,
        Err(e) if e.kind() == io::ErrorKind::NotFound => 0,
        Err(e) => return Err(e),
    };
    Ok(bytes)
}

fn read_input() -> io::Result<Vec<u8>> {
    let mut bytes = Vec::with_capacity(INPUT_BYTES as usize);
    io::stdin().lock().take(INPUT_BYTES).read_to_end(&mut bytes)?;
    Ok(bytes)
}

// The lines of the input; nothing stands after a last line feed.
fn lines_of(input: &[u8]) -> impl Iterator<Item = &[u8]> {
    input
        .split_inclusive(|&b| b == b'\n')
        .map(|line| line.strip_suffix(b"\n").unwrap_or(line))
}

fn report(file: &[u8], input: &[u8]) -> Result<String, Refusal> {
    let chart = Chart::open(file)?;
    let mut lines = lines_of(input);
    let list = lines.next().unwrap_or(b"");
    let mut sheet = Sheet::new(&chart);
    let mut texts = lines.peekable();
    if texts.peek().is_some() {
        let names = Names::read(list, chart.marks)?;
        for text in texts {
            sheet.enter(&names, text)?;
        }
    }
    sheet.finish();
    Ok(sheet.report())
}

fn main() -> io::Result<()> {
    let file = read_file()?;
    let input = read_input()?;
    let out = match report(&file, &input) {
        Ok(text) => text,
        Err(refusal) => refusal.to_string(),
    };
    io::stdout().lock().write_all(out.as_bytes())
}
