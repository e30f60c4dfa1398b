//! A program beside the reference: what it prints must be what the reference prints, byte for byte,
//! it must complain where the reference does, and wrong programs are told from it by that.

use std::io::{self, Write};
use std::process::{Command, Output, Stdio};
use std::thread;

/// More than the longest line has.
const SHOWN_BYTES: usize = 200;

/// What a program makes of an input.
#[derive(Clone, Debug, Default)]
pub struct Run {
    pub printed: Vec<u8>,
    /// What it says on standard error of a run that went well.
    pub report: String,
    /// What it says there of one that didn't. Its words are its own, but see `word_for_word`.
    pub complaint: Option<String>,
}

impl Run {
    pub fn without_complaint(lines: String) -> Run {
        Run { printed: lines.into_bytes(), ..Run::default() }
    }
}

/// A program's run on an input, or in words why it doesn't count.
pub type Runs = Box<dyn Fn(&[u8]) -> Result<Run, String>>;

/// The program that a command runs: its path, then its arguments. A run must end with status 0 and
/// nothing on standard error, or with status 1 and a complaint there: one that is stopped has
/// another status.
pub fn command(words: Vec<String>) -> Runs {
    let runs = reporting_command(words);
    Box::new(move |input| match runs(input)? {
        run if run.report.is_empty() => Ok(run),
        run => Err(format!("status 0, standard error {:?}", shown(run.report.as_bytes()))),
    })
}

/// The same of a program that says on standard error what it has done: with status 0 that is its
/// report.
pub fn reporting_command(words: Vec<String>) -> Runs {
    Box::new(move |input| {
        let output = output(&words, input).map_err(|why| format!("it can't be run: {why}"))?;
        let (printed, error) = (output.stdout, shown(&output.stderr));
        match (output.status.code(), error.is_empty()) {
            (Some(0), _) => {
                let report = String::from_utf8_lossy(&output.stderr).into_owned();
                Ok(Run { printed, report, complaint: None })
            }
            (Some(1), false) => Ok(Run { printed, report: String::new(), complaint: Some(error) }),
            _ => Err(format!("{}, standard error {error:?}", output.status)),
        }
    })
}

/// A program, the steps that the reference takes to print the same, and the wrong steps that
/// have printed the same so far.
pub struct Program<T> {
    runs: Runs,
    expected: fn(&T, &[u8]) -> Run,
    /// In words, what the second run has otherwise than the first.
    difference: fn(&Run, &Run) -> Option<String>,
    reference: T,
    untold: Vec<(&'static str, T)>,
    /// How many wrong ones there were at first.
    pub wrong: usize,
}

impl<T> Program<T> {
    pub fn new(
        runs: Runs,
        expected: fn(&T, &[u8]) -> Run,
        reference: T,
        wrong: Vec<(&'static str, T)>,
    ) -> Program<T> {
        Program { runs, expected, difference, reference, wrong: wrong.len(), untold: wrong }
    }

    /// The same, but what it says on standard error must be what the reference says. It prints
    /// bytes and not lines.
    pub fn word_for_word(self) -> Program<T> {
        Program { difference: any_difference, ..self }
    }

    /// The wrong ones that the program hasn't been told from.
    pub fn untold(&self) -> Vec<&'static str> {
        self.untold.iter().map(|(name, _)| *name).collect()
    }

    /// What the program prints of the input, if it is what the reference prints and it complains
    /// where it must; else the first difference in words.
    pub fn printed(&mut self, input: &[u8]) -> Result<Vec<u8>, String> {
        let run = (self.runs)(input)?;
        let differs = |steps: &T| (self.difference)(&(self.expected)(steps, input), &run);
        self.untold.retain(|(_, wrong)| differs(wrong).is_none());
        match differs(&self.reference) {
            Some(difference) => Err(difference),
            None => Ok(run.printed),
        }
    }
}

/// Runs the command. The input comes from a thread of its own, so that a program that prints
/// before it has read all doesn't wait for us while we wait for it.
fn output(command: &[String], input: &[u8]) -> io::Result<Output> {
    let (program, arguments) = command.split_first().ok_or(io::ErrorKind::InvalidInput)?;
    let mut child = Command::new(program)
        .args(arguments)
        .stdin(Stdio::piped())
        .stdout(Stdio::piped())
        .stderr(Stdio::piped())
        .spawn()?;
    let mut to = child.stdin.take().ok_or(io::ErrorKind::BrokenPipe)?;
    thread::scope(|scope| {
        // A program needn't read what comes after the end of its run.
        scope.spawn(move || drop(to.write_all(input)));
        child.wait_with_output()
    })
}

fn difference(expected: &Run, run: &Run) -> Option<String> {
    match (&expected.complaint, &run.complaint) {
        (None, Some(complaint)) => Some(format!("a complaint: {complaint:?}")),
        (Some(_), None) => Some("no complaint, and one is due".to_string()),
        _ => first_difference(&expected.printed, &run.printed),
    }
}

fn any_difference(expected: &Run, run: &Run) -> Option<String> {
    let (due, complaint) = (&expected.complaint, &run.complaint);
    if due != complaint {
        return Some(format!("the complaint: expected {due:?}, said {complaint:?}"));
    }
    let report = first_difference(expected.report.as_bytes(), run.report.as_bytes());
    report
        .map(|difference| format!("of the report {difference}"))
        .or_else(|| first_byte(&expected.printed, &run.printed))
}

fn first_byte(expected: &[u8], printed: &[u8]) -> Option<String> {
    let bytes = expected.len().max(printed.len());
    let at = (0..bytes).find(|at| expected.get(*at) != printed.get(*at))?;
    let [expected, printed] = [expected, printed].map(|bytes| bytes.get(at));
    Some(format!("byte {at}: expected {expected:02X?}, printed {printed:02X?}"))
}

fn first_difference(expected: &[u8], printed: &[u8]) -> Option<String> {
    let [expected, printed] = [expected, printed].map(|bytes| bytes.split(|byte| *byte == b'\n'));
    let [expected, printed] = [expected, printed].map(|lines| lines.collect::<Vec<&[u8]>>());
    let lines = expected.len().max(printed.len());
    let line = (0..lines).find(|line| expected.get(*line) != printed.get(*line))?;
    let [expected, printed] =
        [expected, printed].map(|lines| lines.get(line).map(|line| shown(line)));
    Some(format!("line {}: expected {expected:?}, printed {printed:?}", line + 1))
}

/// Bytes as text, the first of them: a wrong program may print anything.
fn shown(bytes: &[u8]) -> String {
    String::from_utf8_lossy(&bytes[..bytes.len().min(SHOWN_BYTES)]).into_owned()
}
