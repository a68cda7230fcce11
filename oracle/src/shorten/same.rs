//! The program `shorten` beside the oracle: what it prints for random scripts, and what it says of one that is too long.

use super::{run, script, scripts, MOST_LINES};
use crate::judge::{demand, Verdict};
use crate::script::words::lines;
use std::fmt;
use std::io::Write;
use std::path::Path;
use std::process::{Command, Output, Stdio};

/// What was compared: scripts, those with lines printed, those with more than one, and those that are too long.
#[derive(Default, Debug)]
pub struct Counts {
    pub scripts: u64,
    pub printed: u64,
    pub longer: u64,
    pub too_long: u64,
}

impl fmt::Display for Counts {
    fn fmt(&self, out: &mut fmt::Formatter) -> fmt::Result {
        let (scripts, printed, longer) = (self.scripts, self.printed, self.longer);
        let too_long = self.too_long;
        write!(
            out,
            "{scripts} scripts, {printed} printed, {longer} of more than one line, {too_long} too long"
        )
    }
}

/// Compares the program with the oracle on the scripts of these seeds, or finds the first difference.
pub fn compare(program: &Path, seeds: impl Iterator<Item = u64>) -> Verdict<Counts> {
    let mut counts = Counts::default();
    for seed in seeds {
        let input = scripts::random(seed);
        let mut wanted = Vec::new();
        run(&input, &mut wanted);
        let too_long = script(&input).len() > MOST_LINES;
        let told = match too_long {
            true => "shorten: the script has more than 12 lines\n",
            false => "",
        };
        let output = play(program, &input)?;
        alike(seed, &output.stdout, &wanted)?;
        alike(seed, &output.stderr, told.as_bytes())?;
        let size = lines(&wanted).count();
        counts.scripts += 1;
        counts.printed += u64::from(size > 0);
        counts.longer += u64::from(size > 1);
        counts.too_long += u64::from(too_long);
    }
    Ok(counts)
}

fn alike(seed: u64, printed: &[u8], wanted: &[u8]) -> Verdict<()> {
    let text = |bytes: &[u8]| bytes.escape_ascii().to_string();
    demand(printed == wanted, || {
        let (printed, wanted) = (text(printed), text(wanted));
        format!("seed {seed}: '{printed}' and not '{wanted}'")
    })
}

fn play(program: &Path, input: &[u8]) -> Verdict<Output> {
    let text = |error: std::io::Error| format!("{}: {error}", program.display());
    let mut command = Command::new(program);
    command.stdin(Stdio::piped());
    command.stdout(Stdio::piped()).stderr(Stdio::piped());
    let mut child = command.spawn().map_err(text)?;
    if let Some(mut stdin) = child.stdin.take() {
        stdin.write_all(input).map_err(text)?;
    }
    let output = child.wait_with_output().map_err(text)?;
    let status = output.status;
    demand(status.success(), || {
        format!("{}: {status}", program.display())
    })?;
    Ok(output)
}
