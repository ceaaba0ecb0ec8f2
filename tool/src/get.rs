//! `rvf get`: a vector, a component, or the payload of a segment.

use crate::args::{Get, Wanted};
use crate::failure::{Failure, DONE};
use crate::files::{read_store, write_new};
use crate::json::Json;
use crate::lost::loss;
use crate::refusals::{reading, Target};
use crate::Answer;
use rvf::{Component, Dtype};
use std::path::Path;

/// What was got: members of a JSON object, or bytes to print.
struct Got {
    members: Vec<(&'static str, Json)>,
    text: Vec<u8>,
}

pub fn run(request: &Get, json: bool) -> Result<Answer, Failure> {
    let path = &request.file;
    let file = read_store(path)?;
    let target = request.wanted.target();
    let refused = |refusal| reading(path, &file, target, refusal);
    // An old position sent as the present one is the worst answer there is: where batches are
    // lost, nothing is answered unless the older position will do.
    let loss = if rvf::open(&file).is_ok() { loss(&file).map_err(refused)? } else { None };
    if let Some(loss) = loss.as_ref().filter(|_| !request.accept_older) {
        return Err(loss.unanswered(path));
    }
    let mut got = match &request.wanted {
        Wanted::Vector(id) => vector(*id, &rvf::vector(&file, *id).map_err(refused)?),
        Wanted::Component { id, index } => {
            component(*id, *index, rvf::component(&file, *id, *index).map_err(refused)?)
        }
        Wanted::Segment { id, to } => segment(*id, rvf::payload(&file, *id).map_err(refused)?, to.as_deref())?,
    };
    got.members.extend(loss.as_ref().map(|_| ("may_be_old", Json::True)));
    let warning = loss.map_or(String::new(), |loss| loss.warning(path));
    let output = if json { format!("{}\n", Json::Object(got.members)).into_bytes() } else { got.text };
    Ok(Answer { output, messages: warning, status: DONE })
}

impl Wanted {
    fn target(&self) -> Target {
        match *self {
            Wanted::Vector(id) => Target::Vector(id),
            Wanted::Component { id, index } => Target::Component { id, index },
            Wanted::Segment { id, .. } => Target::Segment(id),
        }
    }
}

fn vector(id: u64, vector: &rvf::Vector) -> Got {
    let components: Vec<Component> = vector.components().collect();
    let words: Vec<String> = components.iter().map(Component::to_string).collect();
    let text = format!("vector {id}, dim {}, dtype {}\n{}\n", components.len(), name(vector.dtype), words.join(" "));
    let members = vec![
        ("id", Json::Number(id)),
        ("dim", Json::Number(components.len() as u64)),
        ("dtype", Json::text(name(vector.dtype))),
        ("values", Json::List(components.iter().map(|&component| Json::component(component)).collect())),
        ("bytes", Json::hex(&vector.bytes)),
    ];
    Got { members, text: text.into_bytes() }
}

fn component(id: u64, index: u64, component: Component) -> Got {
    let (dtype, bytes) = match component {
        Component::F32(value) => (Dtype::F32, value.to_le_bytes().to_vec()),
        Component::I8(value) => (Dtype::I8, value.to_le_bytes().to_vec()),
        Component::U8(value) => (Dtype::U8, vec![value]),
    };
    let members = vec![
        ("id", Json::Number(id)),
        ("component", Json::Number(index)),
        ("dtype", Json::text(name(dtype))),
        ("value", Json::component(component)),
        ("bytes", Json::hex(&bytes)),
    ];
    Got { members, text: format!("{component}\n").into_bytes() }
}

fn name(dtype: Dtype) -> &'static str {
    match dtype {
        Dtype::F32 => "f32",
        Dtype::I8 => "i8",
        Dtype::U8 => "u8",
    }
}

/// A payload goes out as it is: to the path, else to standard output.
fn segment(id: u64, payload: &[u8], to: Option<&Path>) -> Result<Got, Failure> {
    let mut members = vec![("segment", Json::Number(id)), ("length", Json::Number(payload.len() as u64))];
    let Some(to) = to else {
        members.push(("bytes", Json::hex(payload)));
        return Ok(Got { members, text: payload.to_vec() });
    };
    write_new(to, payload)?;
    members.push(("to", Json::text(to.display().to_string())));
    let text = format!("segment {id}: {} bytes written to {}\n", payload.len(), to.display());
    Ok(Got { members, text: text.into_bytes() })
}
