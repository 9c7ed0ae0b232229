//! A plain evaluation of what `ld replay FOLDER..` does for valid units, against which tests/measure_runs.py measures
//! `ld`. It was written from docs/MEANING.md, FORMATS.md and COMMANDS.md: identifiers are looked up once and stand as
//! numbers, what a run keeps stands in vectors by these numbers, and a settling sweeps over all sites until nothing
//! fires. Of a folder with a fault it says nothing of use. It is compiled by `rustc -O` and stands outside the gate.
mod alarm;
mod json;
mod rules;
mod run;
mod tree;
mod unit;
mod value;
mod world;

use std::fs::File;
use std::io::{self, BufRead, BufReader, Read, Write};
use std::os::fd::AsFd;
use std::path::Path;

const LINE_LIMIT: usize = 65_536;
const WAITING_LIMIT: usize = 8_192;

fn main() -> io::Result<()> {
    let words: Vec<String> = std::env::args().skip(1).collect();
    let mut world = world::World::default();
    match words.as_slice() {
        [verb, folders @ ..] if verb == "replay" && (1..=64).contains(&folders.len()) => {
            folders.iter().for_each(|folder| world.publish(Path::new(folder)));
        }
        _ => {
            eprintln!("ld: bad-words");
            std::process::exit(2);
        }
    }
    let mut input = BufReader::with_capacity(65_536, io::stdin().lock());
    let mut output = File::from(io::stdout().as_fd().try_clone_to_owned()?);
    let (mut line, mut out) = (Vec::new(), String::new());
    loop {
        // Replies wait for one another while whole lines are held, up to some 8 KB.
        if out.len() > WAITING_LIMIT || !input.buffer().contains(&b'\n') {
            output.write_all(out.as_bytes())?;
            out.clear();
        }
        line.clear();
        if input.by_ref().read_until(b'\n', &mut line)? == 0 {
            return Ok(());
        }
        if line.last() == Some(&b'\n') {
            line.pop();
        }
        if line.len() > LINE_LIMIT {
            out.push_str("no 1 bad-line\n");
        } else if line.iter().all(|byte| matches!(byte, b' ' | b'\t' | b'\r')) {
            continue;
        } else {
            world.answer(&line, &mut out);
        }
    }
}
