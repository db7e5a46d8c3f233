//! A program that reads a tree file from standard input and prints its listing, beside the
//! original's listing.

use std::fs::{self, File};
use std::io::Write;
use std::process::{Command, Stdio};
use std::thread;

use crate::gen::{seeded, FILES};
use crate::listing::listing;
use crate::records::load;
use crate::rng::Rng;
use crate::tree::*;

/// No longer file has bodies that end at its end: 1,024 numbers, 64 texts of 40 bytes.
const LONGEST: usize = 12_867;

struct Program<'p> {
    path: &'p str,
    /// Where an input is put.
    scratch: String,
    runs: u64,
    longest: usize,
}

impl Program<'_> {
    /// Runs it on an input, from a file or through a pipe.
    fn output(&mut self, input: &[u8], piped: bool) -> Result<Vec<u8>, String> {
        let mut command = Command::new(self.path);
        command.stdout(Stdio::piped()).stderr(Stdio::piped());
        let error = |e: std::io::Error| format!("{}: {e}", self.path);
        let done = if piped {
            let mut child = command.stdin(Stdio::piped()).spawn().map_err(error)?;
            let mut pipe = child.stdin.take().expect("a pipe");
            let copy = input.to_vec();
            // A program that has read enough may leave the rest in the pipe.
            let writer =
                thread::spawn(move || copy.chunks(1000).try_for_each(|p| pipe.write_all(p)));
            let done = child.wait_with_output().map_err(error)?;
            let _ = writer.join().expect("the writer");
            done
        } else {
            fs::write(&self.scratch, input).map_err(error)?;
            let file = File::open(&self.scratch).map_err(error)?;
            command.stdin(file).output().map_err(error)?
        };
        if done.status.success() && done.stderr.is_empty() {
            Ok(done.stdout)
        } else {
            let said = String::from_utf8_lossy(&done.stderr).into_owned();
            Err(format!("ended with {} and said: {said}", done.status))
        }
    }

    /// One input, beside an expected listing.
    fn one(
        &mut self,
        what: &str,
        input: &[u8],
        expected: &[u8],
        piped: bool,
    ) -> Result<(), String> {
        let ours = self.output(input, piped).map_err(|why| format!("{what}: {why}"))?;
        self.runs += 1;
        self.longest = self.longest.max(ours.len());
        if ours == expected {
            return Ok(());
        }
        let kept = format!("{}.differs", self.scratch);
        fs::write(&kept, input).map_err(|e| e.to_string())?;
        let lines = |text: &[u8]| String::from_utf8_lossy(text).into_owned();
        let (ours, expected) = (lines(&ours), lines(expected));
        let line = ours.lines().zip(expected.lines()).take_while(|(a, b)| a == b).count();
        let at = |text: &str| text.lines().nth(line).unwrap_or("nothing").to_string();
        let (a, b) = (at(&ours), at(&expected));
        Err(format!("{what}: line {line}: {a}, not {b}; the input is in {kept}"))
    }

    fn by_original(&mut self, what: &str, input: &[u8], piped: bool) -> Result<(), String> {
        self.one(what, input, listing(input).as_bytes(), piped)
    }
}

/// That file; it is refused for its first text, and with one byte more for its length.
fn longest() -> Vec<u8> {
    let mut out = vec![4, 0, 64];
    out.extend([40; 64]);
    out.extend([19, 0].repeat(1024));
    out.resize(LONGEST, b'x');
    out
}

/// A script with a long listing: an array of 24 numbers under all names, then more statements.
fn long_listing() -> Vec<u8> {
    let copies = (2..64).map(|to| set(to, name(1)));
    let first = std::iter::once(set_array(1, vec![num(0.1); 24])).chain(copies).collect();
    let numbers = |count: usize| block(vec![decl(0, Some(num(0.1))); count]);
    file_of(&program(vec![block(first), numbers(200), numbers(200), numbers(30)]))
}

/// A file with bytes behind it: one, up to the longest file's length, one more, very many.
fn with_tails(program: &mut Program, what: &str, file: &[u8], rng: &mut Rng) -> Result<(), String> {
    for length in [file.len() + 1, LONGEST, LONGEST + 1, 16_384, 16_385, file.len() + 100_000] {
        if length <= file.len() {
            continue;
        }
        let mut longer = file.to_vec();
        let byte = rng.next() as u8;
        longer.resize(length, byte);
        program.by_original(&format!("{what}, {length} bytes"), &longer, rng.chance(50))?;
    }
    Ok(())
}

/// All stored files, so many generated ones of every kind, and longer and shorter inputs.
pub fn check(path: &str, folder: &str, seed: u64, count: u64, scratch: &str) -> Result<(), String> {
    let mut program = Program { path, scratch: format!("{scratch}/input"), runs: 0, longest: 0 };
    fs::create_dir_all(scratch).map_err(|e| e.to_string())?;
    let cases = load(folder, "cases.bin")?;
    for (item, case) in cases.iter().enumerate() {
        program.one(&format!("stored case {item}"), &case.given, &case.answer, item % 8 == 0)?;
    }
    let stored = program.runs;
    for item in 0..count {
        let kind = FILES[item as usize % (FILES.len() - 1)];
        let mut rng = Rng::new(seed, item);
        let what = format!("{kind} seed {seed} item {item}");
        let file = seeded(kind, &mut rng);
        program.by_original(&what, &file, item % 8 == 0)?;
        if item % 16 == 0 {
            with_tails(&mut program, &what, &file, &mut rng)?;
        }
        if item % 16 == 8 {
            let cut = &file[..rng.below(file.len())];
            program.by_original(&format!("{what}, cut off"), cut, false)?;
        }
    }
    program.by_original("an empty input", &[], false)?;
    program.by_original("an empty pipe", &[], true)?;
    program.by_original("100,000 zeros", &[0; 100_000], false)?;
    program.by_original("the longest file", &longest(), false)?;
    with_tails(&mut program, "the longest file", &longest(), &mut Rng::new(seed, count))?;
    program.by_original("a long listing", &long_listing(), false)?;
    let (runs, longest) = (program.runs, program.longest);
    println!(
        "listings: {stored} stored files and {} other inputs as by the original; the longest listing has {longest} bytes",
        runs - stored
    );
    Ok(())
}
