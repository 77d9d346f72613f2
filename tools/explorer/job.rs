//! A job: what each rank calls, step by step, in the plain form that `front.py` makes of the TOML text.

use crate::reacting::{Alternative, Condition};
use std::str::SplitWhitespace;

/// The number of a context: 0 is the world's.
pub type Context = u64;

/// Jobs name the contexts 0 to 62.
pub const LAST_CONTEXT: Context = 62;

/// A rank of the world, or a position in a group.
pub type Place = u8;

/// The body of a letter, by its place in the job's list of bodies.
pub type Body = u16;

/// The communicator of a step of a job: by its number, or the one that an earlier step of the rank was answered, which has a name. The name stands
/// among the bodies.
#[derive(Clone, Copy, Debug, PartialEq, Eq)]
pub enum Comm {
    Number(Context),
    Made { by: u16, name: Body },
}

/// One step of a rank, in the words of a job, or as it is played: then its communicator is a context.
#[derive(Clone, Copy, Debug, PartialEq, Eq)]
pub enum Step<C = Context> {
    Send { to: Place, tag: u16, body: Body, comm: C },
    Recv { from: Option<Place>, tag: Option<u16>, room: u16, comm: C },
    Wait { req: u16 },
    Probe { from: Option<Place>, tag: Option<u16>, comm: C },
    Mrecv { req: u16, room: u16 },
    Cancel { req: u16 },
    Failed { comm: C },
    Ack { count: u8, comm: C },
    Revoke { comm: C },
    Dup { comm: C, again: bool },
    Shrink { comm: C, again: bool },
    Agree { flag: u32, comm: C },
    /// Its text stands among the bodies.
    Note { text: Body },
    Stop,
}

/// What every rank does, and how many items an inbox, or each ring, has room for.
pub struct Job {
    pub capacity: usize,
    /// The steps of each rank, those behind its `stop` too.
    pub steps: Vec<Vec<Step<Comm>>>,
    /// The alternatives of each of these. One of them has to hold, where there are any.
    pub alternatives: Vec<Vec<Vec<Alternative>>>,
    /// Each body and each text of a note once, in lower case hexadecimal digits.
    pub bodies: Vec<String>,
    /// The steps, by rank and number, that may be given up while they stand open.
    pub left: Vec<(usize, usize)>,
    /// How many ranks may die at most, each at any moment.
    pub deaths: usize,
    /// The ranks that may; all of them where none is named.
    pub dying: Vec<usize>,
    /// Whether each end is told, with all answers of its schedule together.
    pub tells_ends: bool,
}

impl Comm {
    /// Whether it may be this context. What a step was answered may be any.
    pub fn may_be(&self, context: Context) -> bool {
        match *self {
            Comm::Number(number) => number == context,
            Comm::Made { .. } => true,
        }
    }
}

impl<C: Copy> Step<C> {
    /// The step with another word for its communicator.
    pub fn on<D>(&self, other: impl Fn(C) -> D) -> Step<D> {
        match *self {
            Step::Send { to, tag, body, comm } => Step::Send { to, tag, body, comm: other(comm) },
            Step::Recv { from, tag, room, comm } => Step::Recv { from, tag, room, comm: other(comm) },
            Step::Wait { req } => Step::Wait { req },
            Step::Probe { from, tag, comm } => Step::Probe { from, tag, comm: other(comm) },
            Step::Mrecv { req, room } => Step::Mrecv { req, room },
            Step::Cancel { req } => Step::Cancel { req },
            Step::Failed { comm } => Step::Failed { comm: other(comm) },
            Step::Ack { count, comm } => Step::Ack { count, comm: other(comm) },
            Step::Revoke { comm } => Step::Revoke { comm: other(comm) },
            Step::Dup { comm, again } => Step::Dup { comm: other(comm), again },
            Step::Shrink { comm, again } => Step::Shrink { comm: other(comm), again },
            Step::Agree { flag, comm } => Step::Agree { flag, comm: other(comm) },
            Step::Note { text } => Step::Note { text },
            Step::Stop => Step::Stop,
        }
    }

    /// Its communicator, if it has one.
    pub fn comm(&self) -> Option<C> {
        match *self {
            Step::Send { comm, .. } | Step::Recv { comm, .. } | Step::Probe { comm, .. } | Step::Failed { comm } | Step::Ack { comm, .. } => Some(comm),
            Step::Revoke { comm } | Step::Dup { comm, .. } | Step::Shrink { comm, .. } | Step::Agree { comm, .. } => Some(comm),
            _ => None,
        }
    }
}

impl Step<Comm> {
    /// Whether it may take a letter of any source in a context.
    pub fn asks_any(&self, context: Context) -> bool {
        match self {
            Step::Recv { from: None, comm, .. } | Step::Probe { from: None, comm, .. } => comm.may_be(context),
            _ => false,
        }
    }

    /// Whether it is on the communicator that the step of this number is answered.
    pub fn names(&self, number: usize) -> bool {
        matches!(self.comm(), Some(Comm::Made { by, .. }) if by as usize == number)
    }
}

impl Job {
    /// Reads the plain form: a line `<ranks> <capacity>`, then a line `<rank> <op> <words>` for each step. Behind these stands
    /// `<alternative> <step> <is or not> <words>` for each of its conditions, the words in hexadecimal digits and parted by commas.
    pub fn read(text: &str) -> Result<Job, String> {
        let mut lines = text.lines();
        let head = lines.next().unwrap_or("");
        let mut words = head.split_whitespace();
        let ranks: usize = number(&mut words).filter(|ranks| (1..=8).contains(ranks)).ok_or(head)?;
        let capacity = number(&mut words).ok_or(head)?;
        let alternatives = (0..ranks).map(|_| vec![]).collect();
        let mut job = Job { capacity, steps: vec![vec![]; ranks], alternatives, bodies: vec![], left: vec![], deaths: 0, dying: vec![], tells_ends: false };
        for line in lines {
            let mut words = line.split_whitespace();
            let rank: usize = number(&mut words).filter(|rank| *rank < ranks).ok_or(line)?;
            let step = job.step(&mut words).ok_or(line)?;
            job.steps[rank].push(step);
            job.alternatives[rank].push(alternatives_in(&mut words).ok_or(line)?);
        }
        Ok(job)
    }

    fn step(&mut self, words: &mut SplitWhitespace) -> Option<Step<Comm>> {
        Some(match words.next()? {
            "send" => {
                let (to, tag) = (number(words)?, number(words)?);
                let body = self.body(words.next()?);
                Step::Send { to, tag, body, comm: self.comm(words)? }
            }
            "recv" => {
                let (from, tag) = (number_or_any(words)?, number_or_any(words)?);
                Step::Recv { from, tag, room: number(words)?, comm: self.comm(words)? }
            }
            "wait" => Step::Wait { req: number(words)? },
            "probe" => {
                let (from, tag) = (number_or_any(words)?, number_or_any(words)?);
                Step::Probe { from, tag, comm: self.comm(words)? }
            }
            "mrecv" => Step::Mrecv { req: number(words)?, room: number(words)? },
            "cancel" => Step::Cancel { req: number(words)? },
            "failed" => Step::Failed { comm: self.comm(words)? },
            "ack" => Step::Ack { count: number(words)?, comm: self.comm(words)? },
            "revoke" => Step::Revoke { comm: self.comm(words)? },
            "dup" => Step::Dup { comm: self.comm(words)?, again: false },
            "dup-again" => Step::Dup { comm: self.comm(words)?, again: true },
            "shrink" => Step::Shrink { comm: self.comm(words)?, again: false },
            "shrink-again" => Step::Shrink { comm: self.comm(words)?, again: true },
            "agree" => Step::Agree { flag: number(words)?, comm: self.comm(words)? },
            "note" => Step::Note { text: self.body(words.next()?) },
            "stop" => Step::Stop,
            _ => return None,
        })
    }

    /// A communicator: its number, or the number of an earlier step, `=`, and its name in hexadecimal digits.
    fn comm(&mut self, words: &mut SplitWhitespace) -> Option<Comm> {
        let word = words.next()?;
        match word.split_once('=') {
            Some((by, name)) => Some(Comm::Made { by: by.parse().ok()?, name: self.body(name) }),
            None => word.parse().ok().filter(|context| *context <= LAST_CONTEXT).map(Comm::Number),
        }
    }

    /// The place of a body in the list, in which equal bodies stand once.
    fn body(&mut self, digits: &str) -> Body {
        let digits = if digits == "-" { "" } else { digits };
        let found = self.bodies.iter().position(|body| body == digits);
        found.unwrap_or_else(|| {
            self.bodies.push(digits.to_string());
            self.bodies.len() - 1
        }) as Body
    }

    /// Puts a stop before the step `at` of a rank, or behind its last one. Its later steps have a number more, by which others name them.
    pub fn stop(&mut self, rank: usize, at: usize) -> Option<()> {
        let steps = self.steps.get_mut(rank).filter(|steps| at <= steps.len())?;
        let moved = |number: u16| if number as usize >= at { number + 1 } else { number };
        for step in steps.iter_mut() {
            match step {
                Step::Wait { req } | Step::Mrecv { req, .. } | Step::Cancel { req } => *req = moved(*req),
                _ => {}
            }
            *step = step.on(|comm| match comm {
                Comm::Made { by, name } => Comm::Made { by: moved(by), name },
                number => number,
            });
        }
        steps.insert(at, Step::Stop);
        for condition in self.alternatives[rank].iter_mut().flatten().flatten() {
            if condition.step >= at {
                condition.step += 1;
            }
        }
        self.alternatives[rank].insert(at, vec![]);
        Some(())
    }

    /// Lets a shrink or an agreement be given up while it stands open.
    pub fn leave(&mut self, rank: usize, at: usize) -> Option<()> {
        let step = self.steps.get(rank)?.get(at)?;
        if !matches!(step, Step::Shrink { .. } | Step::Agree { .. }) {
            return None;
        }
        self.left.push((rank, at));
        Some(())
    }

    /// Whether a rank may give some step up.
    pub fn may_give_up(&self, rank: usize) -> bool {
        self.left.iter().any(|(one, _)| *one == rank)
    }

    pub fn ranks(&self) -> usize {
        self.steps.len()
    }

    /// How many bytes a body has.
    pub fn length(&self, body: Body) -> usize {
        self.bodies[body as usize].len() / 2
    }
}

/// The conditions in which a line ends, by alternatives.
fn alternatives_in(words: &mut SplitWhitespace) -> Option<Vec<Alternative>> {
    let mut found: Vec<Alternative> = vec![];
    while let Some(alternative) = words.next() {
        let step = number(words)?;
        let is_not = words.next()? == "not";
        let condition = Condition { step, is_not, words: words.next()?.split(',').map(text).collect::<Option<_>>()? };
        if alternative.parse::<usize>().ok()? == found.len() {
            found.push(vec![]);
        }
        found.last_mut()?.push(condition);
    }
    Some(found)
}

/// The text of which these are the bytes, in hexadecimal digits.
pub fn text(digits: &str) -> Option<String> {
    let byte = |at: usize| u8::from_str_radix(digits.get(at..at + 2)?, 16).ok();
    let bytes: Option<Vec<u8>> = (0..digits.len()).step_by(2).map(byte).collect();
    String::from_utf8(bytes?).ok()
}

fn number<N: std::str::FromStr>(words: &mut SplitWhitespace) -> Option<N> {
    words.next()?.parse().ok()
}

fn number_or_any<N: std::str::FromStr>(words: &mut SplitWhitespace) -> Option<Option<N>> {
    match words.next()? {
        "any" => Some(None),
        word => Some(Some(word.parse().ok()?)),
    }
}
