//! A row of the table, as it is read line by line.

use crate::doors::Looks;
use crate::texts::{Texts, add_written, words_of};
use std::alloc::{AllocError, Global};

/// What `show` prints over the journal from some place in a command's output on.
#[derive(Drop)]
pub(crate) struct Mark {
    /// How many bytes the command has printed before.
    pub(crate) offset: usize,
    pub(crate) shown: Vec<u8>,
}

/// A command over the row's journal, and what is to come of it.
#[derive(Drop)]
pub(crate) struct Step {
    pub(crate) words: Vec<String>,
    /// What the words ask for, in place of a run. These options stand behind them, in each order.
    pub(crate) asks: Option<String>,
    pub(crate) options: Vec<String>,
    pub(crate) input: Vec<u8>,
    pub(crate) wanted: Vec<u8>,
    /// Where any lines may stand in what is printed.
    pub(crate) gap: Option<usize>,
    pub(crate) status: Option<u8>,
    /// What is left of the input, where the row says it.
    pub(crate) left: Option<Vec<u8>>,
    /// The numbers of the calls that fail, of the input, of the output and of the disk.
    pub(crate) reads: Vec<u32>,
    pub(crate) writes: Vec<u32>,
    pub(crate) calls: Vec<u32>,
    /// How often two parts of a search wait for each other, where they do.
    pub(crate) looks: Option<Looks>,
    /// What becomes of the journal before the command runs.
    pub(crate) journal: Option<Vec<u8>>,
    pub(crate) cut: Option<usize>,
    pub(crate) set: Option<(usize, Vec<u8>)>,
    pub(crate) marks: Vec<Mark>,
    /// How long the journal is afterwards, and how it ends.
    pub(crate) size: Option<usize>,
    pub(crate) end: Option<Vec<u8>>,
    /// What `show` prints over the contents that a crash may leave afterwards: each of these, and
    /// nothing else.
    pub(crate) images: Vec<Vec<u8>>,
}

impl Step {
    fn new(alloc: Global, words: Vec<String>) -> Step {
        Step {
            words,
            asks: None,
            options: Vec::new(alloc),
            input: Vec::new(alloc),
            wanted: Vec::new(alloc),
            gap: None,
            status: None,
            left: None,
            reads: Vec::new(alloc),
            writes: Vec::new(alloc),
            calls: Vec::new(alloc),
            looks: None,
            journal: None,
            cut: None,
            set: None,
            marks: Vec::new(alloc),
            size: None,
            end: None,
            images: Vec::new(alloc),
        }
    }
}

/// Which calls fail in turn, in runs of the row beside the one in which none does.
#[derive(Clone, Copy)]
pub(crate) struct Failing {
    pub(crate) reads: bool,
    pub(crate) writes: bool,
    pub(crate) calls: bool,
    /// The disk stops at each of its calls.
    pub(crate) stops: bool,
}

/// Commands one after the other over a journal of their own, which is empty at first.
#[derive(Drop)]
pub(crate) struct Row {
    pub(crate) steps: Vec<Step>,
    pub(crate) failing: Failing,
}

impl Row {
    pub(crate) fn new(alloc: Global) -> Row {
        Row {
            steps: Vec::new(alloc),
            failing: Failing {
                reads: false,
                writes: false,
                calls: false,
                stops: false,
            },
        }
    }

    /// Takes a line of the table. False where it isn't one.
    pub(crate) fn take(
        &mut self,
        alloc: Global,
        texts: &mut Texts,
        line: &str,
    ) -> Result<bool, AllocError> {
        let (word, rest) = line.split_once(' ').unwrap_or((line, ""));
        match word {
            "text" => match rest.split_once(' ') {
                Some((name, written)) => texts.name(alloc, name, written),
                None => Ok(false),
            },
            "+" => texts.lengthen(alloc, rest),
            "every" => Ok(self.take_failing(rest)),
            "$" => self.begin(alloc, rest),
            _ => match self.steps.last_mut() {
                Some(step) => step.take(alloc, texts, word, rest),
                None => Ok(false),
            },
        }
    }

    fn begin(&mut self, alloc: Global, line: &str) -> Result<bool, AllocError> {
        let words = words_of(alloc, line)?;
        self.steps.push(Step::new(alloc, words))?;
        Ok(true)
    }

    fn take_failing(&mut self, kind: &str) -> bool {
        match kind {
            "read fails" => self.failing.reads = true,
            "write fails" => self.failing.writes = true,
            "disk call fails" => self.failing.calls = true,
            "disk call stops" => self.failing.stops = true,
            _ => return false,
        }
        true
    }
}

impl Step {
    fn take(
        &mut self,
        alloc: Global,
        texts: &Texts,
        word: &str,
        rest: &str,
    ) -> Result<bool, AllocError> {
        if let Some(how) = word.strip_prefix('<') {
            return add_lines(alloc, texts, how, rest, &mut self.input);
        }
        if let Some(how) = word.strip_prefix('>') {
            if how.is_empty() && rest == "..." {
                self.gap = Some(self.wanted.len());
                return Ok(true);
            }
            return add_lines(alloc, texts, how, rest, &mut self.wanted);
        }
        match word {
            "*" => self.mark(alloc, texts, rest),
            "~" => put(alloc, texts, rest, &mut self.left),
            "journal" => put(alloc, texts, rest, &mut self.journal),
            "ends" => put(alloc, texts, rest, &mut self.end),
            "images" => add_text(alloc, texts, rest, &mut self.images),
            "set" => self.set(alloc, texts, rest),
            "fail" => self.fail(rest),
            "meet" => Ok(self.meet(rest)),
            "?" => self.ask(alloc, rest),
            "options" => self.take_options(alloc, rest),
            _ => Ok(self.take_number(word, rest)),
        }
    }

    fn take_number(&mut self, word: &str, rest: &str) -> bool {
        let Ok(number) = rest.parse::<u32>() else {
            return false;
        };
        match word {
            "=" => self.status = u8::try_from(number).ok(),
            "cut" => self.cut = Some(number as usize),
            "size" => self.size = Some(number as usize),
            _ => return false,
        }
        true
    }

    fn mark(&mut self, alloc: Global, texts: &Texts, written: &str) -> Result<bool, AllocError> {
        let mut shown = Vec::new(alloc);
        let is_read = add_written(texts, written, &mut shown)?;
        self.marks.push(Mark {
            offset: self.wanted.len(),
            shown,
        })?;
        Ok(is_read)
    }

    fn set(&mut self, alloc: Global, texts: &Texts, rest: &str) -> Result<bool, AllocError> {
        let Some((at, written)) = rest.split_once(' ') else {
            return Ok(false);
        };
        let Ok(at) = at.parse::<u32>() else {
            return Ok(false);
        };
        let mut bytes = Vec::new(alloc);
        let is_read = add_written(texts, written, &mut bytes)?;
        self.set = Some((at as usize, bytes));
        Ok(is_read)
    }

    fn ask(&mut self, alloc: Global, rest: &str) -> Result<bool, AllocError> {
        self.asks = Some(String::from_str(alloc, rest)?);
        Ok(true)
    }

    fn take_options(&mut self, alloc: Global, rest: &str) -> Result<bool, AllocError> {
        self.options = words_of(alloc, rest)?;
        Ok(true)
    }

    fn meet(&mut self, rest: &str) -> bool {
        self.looks = looks_in(rest);
        self.looks.is_some()
    }

    fn fail(&mut self, rest: &str) -> Result<bool, AllocError> {
        let Some((kind, numbers)) = rest.split_once(' ') else {
            return Ok(false);
        };
        match kind {
            "read" => add_numbers(numbers, &mut self.reads),
            "write" => add_numbers(numbers, &mut self.writes),
            "disk" => add_numbers(numbers, &mut self.calls),
            _ => Ok(false),
        }
    }
}

/// How often a question is looked for, and in how many of these something is learned.
fn looks_in(rest: &str) -> Option<Looks> {
    let (questions, later) = rest.split_once(' ')?;
    Some(Looks {
        questions: questions.parse().ok()?,
        later: later.parse().ok()?,
    })
}

/// Adds a line: with its newline, without it where `-` stands before, or so often as the number
/// says that stands before.
fn add_lines(
    alloc: Global,
    texts: &Texts,
    how: &str,
    written: &str,
    bytes: &mut Vec<u8>,
) -> Result<bool, AllocError> {
    let mut line = Vec::new(alloc);
    let is_read = add_written(texts, written, &mut line)?;
    if how == "-" {
        bytes.extend_from_slice(&line)?;
        return Ok(is_read);
    }
    let Ok(count) = (if how.is_empty() { "1" } else { how }).parse::<u32>() else {
        return Ok(false);
    };
    line.push(b'\n')?;
    for _ in 0..count {
        bytes.extend_from_slice(&line)?;
    }
    Ok(is_read)
}

fn put(
    alloc: Global,
    texts: &Texts,
    written: &str,
    place: &mut Option<Vec<u8>>,
) -> Result<bool, AllocError> {
    let mut bytes = Vec::new(alloc);
    let is_read = add_written(texts, written, &mut bytes)?;
    *place = Some(bytes);
    Ok(is_read)
}

fn add_text(
    alloc: Global,
    texts: &Texts,
    written: &str,
    list: &mut Vec<Vec<u8>>,
) -> Result<bool, AllocError> {
    let mut bytes = Vec::new(alloc);
    let is_read = add_written(texts, written, &mut bytes)?;
    list.push(bytes)?;
    Ok(is_read)
}

fn add_numbers(written: &str, numbers: &mut Vec<u32>) -> Result<bool, AllocError> {
    for word in written.split_whitespace() {
        match word.parse::<u32>() {
            Ok(number) => numbers.push(number)?,
            Err(_) => return Ok(false),
        }
    }
    Ok(true)
}
