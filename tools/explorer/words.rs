//! Steps and answers in the words of the trace.

use crate::items::{Answer, Refusal};
use crate::job::{text, Comm, Job, Step};

/// The words of a step.
pub fn step_words(job: &Job, step: &Step<Comm>) -> String {
    match step.on(|comm| comm_words(job, comm)) {
        Step::Send { to, tag, comm, .. } => format!("send {to} tag {tag} comm {comm}"),
        Step::Recv { from, tag, comm, .. } => {
            format!("recv {} tag {} comm {comm}", or_any(from), or_any(tag))
        }
        Step::Wait { req } => format!("wait {req}"),
        Step::Probe { from, tag, comm } => format!("probe {} tag {} comm {comm}", or_any(from), or_any(tag)),
        Step::Mrecv { req, .. } => format!("mrecv {req}"),
        Step::Cancel { req } => format!("cancel {req}"),
        Step::Failed { comm } => format!("failed comm {comm}"),
        Step::Ack { count, comm } => format!("ack {count} comm {comm}"),
        Step::Revoke { comm } => format!("revoke comm {comm}"),
        Step::Dup { comm, again } => format!("dup comm {comm}{}", again_words(again)),
        Step::Shrink { comm, again } => format!("shrink comm {comm}{}", again_words(again)),
        Step::Agree { flag, comm } => format!("agree {flag} comm {comm}"),
        Step::Note { text: label } => format!("note {}", text(&job.bodies[label as usize]).unwrap_or_default()),
        Step::Stop => "stop".to_string(),
    }
}

/// The number of a communicator, or its name.
fn comm_words(job: &Job, comm: Comm) -> String {
    match comm {
        Comm::Number(number) => number.to_string(),
        Comm::Made { name, .. } => text(&job.bodies[name as usize]).unwrap_or_default(),
    }
}

/// The word of a step that asks for a further communicator.
fn again_words(again: bool) -> &'static str {
    if again { " again" } else { "" }
}

/// The words of an answer.
pub fn answer_words(job: &Job, answer: &Answer) -> String {
    match answer {
        Answer::Sent => "sent".to_string(),
        Answer::Posted => "posted".to_string(),
        Answer::Done(source, tag, body) => {
            let body = &job.bodies[*body as usize];
            let body = if body.is_empty() { "-" } else { body };
            format!("done from {source} tag {tag} {body}")
        }
        Answer::Over(refusal) => format!("over {}", refusal_words(*refusal)),
        Answer::Pending => "pending".to_string(),
        Answer::Found(source, tag, length) => format!("found from {source} tag {tag} length {length}"),
        Answer::Cancelled => "cancelled".to_string(),
        Answer::Ranks(positions) => format!("ranks [{}]", parted(positions.iter())),
        Answer::Acked(total) => format!("acked {total}"),
        Answer::Revoked => "revoked".to_string(),
        Answer::Made(context) => format!("comm {context}"),
        Answer::Shrunk(context, group, me) => {
            format!("comm {context} ranks [{}] me {me}", parted(group.members()))
        }
        Answer::Agreed(value, left_out) => format!("agreed {value} without [{}]", parted(left_out.iter())),
        Answer::Noted => "noted".to_string(),
        Answer::Stopped => "stopped".to_string(),
        Answer::Skipped => "skipped".to_string(),
        Answer::Unfinished => "unfinished".to_string(),
        Answer::Refused(refusal) => format!("refused {}", refusal_words(*refusal)),
    }
}

fn refusal_words(refusal: Refusal) -> &'static str {
    match refusal {
        Refusal::NoComm => "1 NoComm",
        Refusal::BadRank => "2 BadRank",
        Refusal::TooLong => "4 TooLong",
        Refusal::ProcFailed => "5 ProcFailed",
        Refusal::Revoked => "6 Revoked",
        Refusal::NoRequest => "7 NoRequest",
        Refusal::AlreadyMade => "8 AlreadyMade",
        Refusal::NoContext => "9 NoContext",
        Refusal::NotMember => "11 NotMember",
        Refusal::Truncated => "15 Truncated",
    }
}

fn or_any<N: ToString>(number: Option<N>) -> String {
    number.map_or("any".to_string(), |number| number.to_string())
}

fn parted<N: ToString>(numbers: impl Iterator<Item = N>) -> String {
    numbers.map(|number| number.to_string()).collect::<Vec<_>>().join(" ")
}
