//! All outcomes of a job, over every schedule. `tools/developers/explore` builds this and calls it with the job, in the plain form, on standard
//! input. It shares no code with the program that it checks, and nothing of it is proved.
//!
//!     explorer [--carrier lanes|shared] [--reduce NAMES] [--limit N] [--capacity N] [--stop R.K].. [--left R.K]..
//!              [--deaths N] [--dying R].. [--row 'R.K WORDS;R.K WORDS'].. [--ends] [--count]

mod agree;
mod ahead;
mod calls;
mod carriers;
mod communicators;
mod deaths;
mod deciding;
mod ends;
mod failures;
mod first;
mod group;
mod items;
mod job;
mod late;
mod list;
mod matching;
mod messages;
mod part;
mod rank;
mod reacting;
mod reductions;
mod revocation;
mod rows;
mod search;
mod shrink;
mod topics;
mod words;
mod world;

use carriers::Carrier;
use job::Job;
use reductions::Reductions;
use rows::Rows;
use search::Search;
use std::io::Read;
use std::process::exit;

/// What the words of the command line ask for.
struct Asked {
    carrier: Carrier,
    reductions: Reductions,
    limit: usize,
    capacity: Option<usize>,
    /// The ranks that stop, and the numbers of the steps before which they do.
    stops: Vec<(usize, usize)>,
    /// The steps that may be given up while they stand open, by the numbers that they have then.
    left: Vec<(usize, usize)>,
    /// How many ranks may die at most, each at any moment, and which; all where none is named.
    deaths: usize,
    dying: Vec<usize>,
    /// The rows of answers of which is told whether they come together.
    rows: Rows,
    tells_ends: bool,
    counts_only: bool,
}

fn asked(mut words: impl Iterator<Item = String>) -> Option<Asked> {
    let reductions = Reductions::named("key,late")?;
    let mut asked = Asked {
        carrier: Carrier::Lanes,
        reductions,
        limit: 1_000_000,
        capacity: None,
        stops: vec![],
        left: vec![],
        deaths: 0,
        dying: vec![],
        rows: Rows::default(),
        tells_ends: false,
        counts_only: false,
    };
    while let Some(word) = words.next() {
        match word.as_str() {
            "--carrier" => {
                asked.carrier = match words.next()?.as_str() {
                    "lanes" => Carrier::Lanes,
                    "shared" => Carrier::Shared,
                    _ => return None,
                }
            }
            "--reduce" => asked.reductions = Reductions::named(&words.next()?)?,
            "--limit" => asked.limit = words.next()?.parse().ok()?,
            "--capacity" => asked.capacity = Some(words.next()?.parse().ok()?),
            "--stop" => asked.stops.push(place(&words.next()?)?),
            "--left" => asked.left.push(place(&words.next()?)?),
            "--deaths" => asked.deaths = words.next()?.parse().ok()?,
            "--dying" => asked.dying.push(words.next()?.parse().ok()?),
            "--row" => asked.rows.add(&words.next()?)?,
            "--ends" => asked.tells_ends = true,
            "--count" => asked.counts_only = true,
            _ => return None,
        }
    }
    Some(asked)
}

/// A rank and the number of its step.
fn place(text: &str) -> Option<(usize, usize)> {
    let (rank, at) = text.split_once('.')?;
    Some((rank.parse().ok()?, at.parse().ok()?))
}

/// The list, or the line that there are too many states; the status is 7 then.
fn main() {
    let Some(asked) = asked(std::env::args().skip(1)) else {
        eprintln!("explorer: [--carrier lanes|shared] [--reduce NAMES] [--limit N] [--capacity N] [--stop R.K]..");
        eprintln!("          [--left R.K].. [--deaths N] [--dying R].. [--row 'R.K WORDS;R.K WORDS'].. [--ends] [--count]");
        exit(2)
    };
    let mut text = String::new();
    let read = std::io::stdin().read_to_string(&mut text).map_err(|error| error.to_string());
    let mut job = match read.and_then(|_| Job::read(&text)) {
        Ok(job) => job,
        Err(line) => {
            eprintln!("explorer: this line isn't of a job: {line}");
            exit(1)
        }
    };
    job.capacity = asked.capacity.unwrap_or(job.capacity);
    for (rank, at) in asked.stops {
        if job.stop(rank, at).is_none() {
            eprintln!("explorer: the job has no step {rank}.{at}");
            exit(2)
        }
    }
    for (rank, at) in asked.left {
        if job.leave(rank, at).is_none() {
            eprintln!("explorer: {rank}.{at} is no shrink and no agreement");
            exit(2)
        }
    }
    (job.deaths, job.dying, job.tells_ends) = (asked.deaths, asked.dying, asked.tells_ends);
    let mut search = Search::new(&job, asked.carrier, asked.reductions, asked.rows);
    if !search.run(asked.limit) {
        println!("more than {} states", asked.limit);
        exit(7)
    }
    println!("{}", if asked.counts_only { search.count() } else { search.list() });
}
