//! A decision procedure for sentences about real numbers, written from its description alone, to compare answers with.

mod decide;
mod eliminate;
mod polynomial;
mod random;
mod sign;
mod table;
mod tree;
mod words;

#[cfg(test)]
mod cases;
#[cfg(test)]
mod text;

use std::io::{self, BufRead, Write};

fn main() -> io::Result<()> {
    let arguments: Vec<String> = std::env::args().skip(1).collect();
    let arguments: Vec<&str> = arguments.iter().map(String::as_str).collect();
    match arguments[..] {
        ["answer"] => answer(),
        ["random", seed, count] => match (seed.parse(), count.parse()) {
            (Ok(seed), Ok(count)) => print_random(seed, count),
            _ => usage(),
        },
        _ => usage(),
    }
}

fn usage() -> ! {
    eprintln!("usage: compare answer | compare random SEED COUNT");
    std::process::exit(2)
}

fn answer() -> io::Result<()> {
    let mut input = io::stdin().lock();
    let mut output = io::stdout().lock();
    let mut line = Vec::new();
    while input.read_until(b'\n', &mut line)? > 0 {
        let words = line.strip_suffix(b"\n").unwrap_or(&line);
        writeln!(output, "{}", decide::answer_line(words))?;
        output.flush()?;
        line.clear();
    }
    Ok(())
}

fn print_random(seed: u64, count: u64) -> io::Result<()> {
    let mut output = io::BufWriter::new(io::stdout().lock());
    let mut generator = random::Generator::new(seed);
    for _ in 0..count {
        let words: Vec<String> = generator.sentence().iter().map(i64::to_string).collect();
        writeln!(output, "{}", words.join(" "))?;
    }
    output.flush()
}
