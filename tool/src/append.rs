//! `rvf append` and `rvf retire`: the append is made in memory, where the library accepts
//! or refuses it, and only an accepted one is written.

use crate::append_refusals::Attempt;
use crate::args::{Append, Batch, Reading};
use crate::commit::commit;
use crate::failure::{Failure, Refused};
use crate::files::{must_be_regular, read_source};
use crate::first::{put, Put};
use crate::held::Held;
use crate::lost::loss;
use crate::plan::{Done, Plan};
use crate::room::frees;
use crate::text::{self, Wrong, TEXT_LIMIT};
use crate::Answer;
use rvf::{Body, Refusal, BATCH_LIMIT};
use std::fs;
use std::io::{ErrorKind, Read};
use std::time::{SystemTime, UNIX_EPOCH};

pub fn run(request: &Append, json: bool, stdin: &mut dyn Read) -> Result<Answer, Failure> {
    let path = &request.file;
    exists(request)?;
    // The batch comes before the lock: standard input may take long, and a lock should not.
    let batch = batch(request, stdin)?;
    let time = request.time.unwrap_or_else(now);
    let (plan, done) = loop {
        // Where another first batch was quicker, this one is no first batch any more.
        if let Some(done) = append(request, &batch, time)? {
            break done;
        }
    };
    let room = plan.room().map_or(String::new(), |room| room.words(path, &frees(path, plan.file())));
    Ok(Answer::of(json, || plan.json(&done), || plan.text(path, &done)).saying(room))
}

/// Makes the append and, unless it is a dry run, writes it. None where the path names another
/// file than it did.
fn append(request: &Append, batch: &[u8], time: u64) -> Result<Option<(Plan, Done)>, Failure> {
    let (path, writing) = (&request.file, request.writing);
    let held = if exists(request)? {
        Held::of(path, (!writing.dry_run).then_some(writing.wait))?
    } else {
        Some(Held::default())
    };
    let Some(mut held) = held else {
        return Ok(None);
    };
    let plan = plan(request, &held.bytes, batch, time)?;
    if writing.dry_run {
        return Ok(Some((plan, Done { dry_run: true, saved: None })));
    }
    if held.bytes.is_empty() {
        let done = Done { dry_run: false, saved: None };
        return Ok((put(path, plan.new_bytes(), writing.wait)? == Put::Done).then_some((plan, done)));
    }
    let saved = if writing.discard_tail { held.save_from(plan.start, path)? } else { None };
    let failed = |words: String| Failure::Io(format!("{}: {words}", path.display()));
    held.must_be_unchanged().map_err(|words| failed(format!("{words}; nothing is written")))?;
    if let Some(file) = &mut held.file {
        commit(file, plan.start as u64, plan.new_bytes()).map_err(|broken| failed(broken.words()))?;
    }
    Ok(Some((plan, Done { dry_run: false, saved })))
}

/// The accepted append. Where it would remove lost batches, it must be told so.
fn plan(request: &Append, file: &[u8], batch: &[u8], time: u64) -> Result<Plan, Failure> {
    let attempt = Attempt { request, file, batch };
    let refused = |refusal| attempt.failure(refusal);
    if !request.writing.discard_tail && rvf::open(file).is_ok() {
        if let Some(loss) = loss(file).map_err(refused)? {
            return Err(loss.unwritten(&request.file, "an append would remove", DISCARD_AND_APPEND));
        }
    }
    Plan::of(file, batch, &request.retire, time).map_err(refused)
}

const DISCARD_AND_APPEND: &str = "or --discard-tail, which saves what lies behind in a file of its own and appends";

/// Whether there is such a file; anything else of this name cannot be appended to, and where
/// there is none, one must be wished for.
fn exists(request: &Append) -> Result<bool, Failure> {
    let path = &request.file;
    match fs::metadata(path) {
        Ok(metadata) => must_be_regular(path, &metadata).map(|()| true),
        Err(error) if error.kind() == ErrorKind::NotFound && request.create => Ok(false),
        Err(error) if error.kind() == ErrorKind::NotFound => {
            Err(Failure::Input(format!("{}: no such file; to start a new one, add --create", path.display())))
        }
        Err(error) => Err(Failure::unreadable(path, &error)),
    }
}

pub fn now() -> u64 {
    let since = SystemTime::now().duration_since(UNIX_EPOCH).unwrap_or_default();
    since.as_nanos().try_into().unwrap_or(u64::MAX)
}

/// The batch's bytes. Whether they keep the rules is the library's to say.
fn batch(request: &Append, stdin: &mut dyn Read) -> Result<Vec<u8>, Failure> {
    match &request.batch {
        Batch::Empty => Ok(rvf::batch(&[])),
        Batch::Bytes(source) => read_source(source, BATCH_LIMIT, stdin),
        Batch::Vectors(source, reading) => vectors(&source.name(), &read_source(source, TEXT_LIMIT, stdin)?, *reading),
    }
}

/// The batch of one segment that holds the vectors of a text.
fn vectors(name: &str, text: &[u8], reading: Reading) -> Result<Vec<u8>, Failure> {
    let too_many = |refusal| {
        let why = "a batch holds at most 4,096 vectors, 1,024 values each and 1,048,576 bytes in all";
        Failure::from(Refused::new(name, refusal).why(why).next("split the text"))
    };
    let payload = text::payload(text, reading).map_err(|wrong| match wrong {
        Wrong::Text(words) => Failure::Input(format!("{name}: {words}")),
        // The binding's buffer is as long as a batch, so what it cannot hold no batch can.
        Wrong::Refused(Refusal::NoRoom) => too_many(Refusal::Batch),
        Wrong::Refused(refusal) => too_many(refusal),
    })?;
    let batch = rvf::batch(&[Body { kind: rvf::VEC, flags: 0, bytes: &payload }]);
    if batch.len() > BATCH_LIMIT { Err(too_many(Refusal::Batch)) } else { Ok(batch) }
}
