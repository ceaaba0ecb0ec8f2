//! The texts of `rvf help`.

use crate::json::Json;
use crate::Answer;

pub const COMMANDS: [&str; 7] = ["list", "check", "get", "append", "retire", "compact", "salvage"];

const ALL: &str = "\
rvf: RVF files listed, checked, read, appended to and compacted

  rvf list FILE...                          the segments of the file's directory
  rvf check FILE...                         what is wrong with a file, where, and what it means
  rvf get FILE VECTOR-ID                    the vector with an id
  rvf get FILE VECTOR-ID --component INDEX  one of its components
  rvf get FILE --segment SEGMENT-ID         the payload of a segment
  rvf append FILE BATCH                     append a batch
  rvf append FILE --vectors TEXT            append vectors written as text
  rvf retire FILE SEGMENT-ID...             retire segments
  rvf compact FILE                          get the room of retired segments and older manifests back
  rvf salvage FILE NEW                      save what is whole in a damaged file to a new one
  rvf help COMMAND                          more about a command (also -h, --help)
  rvf --version                             the version (also -V)

A file holds segments, and segments of type VEC hold vectors. Both have ids, and these have
nothing to do with each other: 'rvf list' shows those of the segments.

--json, anywhere, prints one JSON value instead of text; -q (--quiet) prints nothing on standard
output. A value may follow its option as a word or behind '='. Behind -- no word is an option.

Exit status: 0 done; 1 to 15 the number of a refusal; 64 wrong words; 65 faults, or lost batches;
66 an input cannot be read; 73 done, but standard output failed; 74 reading or writing failed;
75 another append or compaction holds the file.
";

const LIST: &str = "\
rvf list FILE... [--json]

Prints the directory of the file's manifest, a line for each segment: id, type, offset,
payload length, state (live or retired) and whether its content hash agrees (ok or bad).
The manifest itself stands last; then its end, and how many boundaries the search for it
tried. Files of up to 16,777,216 bytes. Where batches behind the manifest are lost, the
list is an old one: standard error says so, and the exit status is 65.
";

const CHECK: &str = "\
rvf check FILE... [--json]

Walks through the file from byte 0 and says what is wrong, and where. A FAULT makes calls
refuse, or answer what may be old: no manifest; a live segment whose hash, layout, dtype or
block checksum is bad; batches behind the manifest that are lost. A remark does not: damage
in a retired segment or in an older manifest, a batch that was cut short. Exit status 0
without a fault, 65 with one. The file is not changed.
";

const GET: &str = "\
rvf get FILE VECTOR-ID [--json]                         the newest live vector with this id
rvf get FILE VECTOR-ID --component INDEX [--json]       one component of it, counted from 0
rvf get FILE --segment SEGMENT-ID [--to PATH] [--json]  the payload of a live segment, as it is

Nothing is answered out of a segment that is bad, and nothing where batches behind the file's
manifest are lost (status 65): what is left may be old. --accept-older answers it all the same;
standard error, and \"may_be_old\" in JSON, say what it is. A payload goes to standard output, or
to PATH, which must not exist yet. With --json, bytes are also given in hexadecimal; NaN and
infinities, which are no JSON numbers, are strings.
";

const APPEND: &str = "\
rvf append FILE BATCH [options]
rvf append FILE --vectors TEXT [--no-final-newline] [--round] [options]

  --retire SEGMENT-ID   also retire a segment; may be given several times
  --time NANOSECONDS    the time of the new segments since 1970; else it is now
  --create              start a new file where there is none
  --wait SECONDS        wait for another append or compaction that holds the file
  --dry-run             say what would be done and write nothing
  --discard-tail        remove lost batches behind the manifest, once they are saved in FILE.tail-N

Appends a batch to FILE and retires the named segments, both or neither. BATCH is a file
in the batch form (include/rvf.h), TEXT one of lines

    ID VALUE VALUE ...

with the id of a vector and equally many values each, which become one segment of f32 vectors;
from # on a line is a comment. The last line ends with a line feed too, or it may be cut short:
--no-final-newline says that it is whole. A value that an f32 does not hold is refused, or rounded
with --round. - is standard input. An empty file is an empty store. A power cut leaves the file
as it answered before, or the new one.
";

const RETIRE: &str = "\
rvf retire FILE SEGMENT-ID... [--time NANOSECONDS] [--wait SECONDS] [--dry-run] [--discard-tail] [--json]

Retires segments: an append of a batch without segments. Vectors in them are no longer
found, so an older one with the same id answers in their place. It cannot be undone. After
damage, append the batch again with --retire instead: then no older position comes back.
The options are those of 'rvf append'.
";

const COMPACT: &str = "\
rvf compact FILE [options]

  --to NEW          write the fresh file to NEW, which must not exist, and leave FILE alone
  --wait SECONDS    wait for another append or compaction that holds the file
  --dry-run         say what would be done and write nothing
  --discard-tail    remove lost batches behind the manifest, once they are saved in FILE.tail-N

Writes a fresh file of the live segments and one manifest, and puts it in FILE's place: what is
retired, and the manifests of older batches, are gone for good, and their bytes and entries come
back. Ids, times and flags stay; vectors and payloads answer as before, and the next append gets
the id that it would have got. Refused (4) where a live segment is damaged. A batch that was cut
short goes too; lost batches stop it (65). The fresh file is written beside FILE, flushed and
renamed, so a power cut or a kill leaves the old file or the new one. Where nothing would come
back, FILE is left as it is.
";

const SALVAGE: &str = "\
rvf salvage FILE NEW [--json]

Writes a new file with every segment of FILE that is whole: those of the chain from byte 0 and,
behind a break, those that the directories of lost manifests name, and what follows them. Ids,
times, flags and states stay; one manifest for all of them is written anew. Says of each segment
what became of it. Exit status 0 where nothing is lost, 65 where something is. FILE is not changed,
and NEW must not exist.
";

fn text(topic: Option<&str>) -> &'static str {
    match topic {
        Some("list") => LIST,
        Some("check") => CHECK,
        Some("get") => GET,
        Some("append") => APPEND,
        Some("retire") => RETIRE,
        Some("compact") => COMPACT,
        Some("salvage") => SALVAGE,
        _ => ALL,
    }
}

pub fn answer(topic: Option<&str>, json: bool) -> Answer {
    let text = text(topic);
    Answer::of(json, || Json::Object(vec![("help", Json::text(text))]), || text.to_string())
}

pub fn version(json: bool) -> Answer {
    let version = env!("CARGO_PKG_VERSION");
    Answer::of(json, || Json::Object(vec![("version", Json::text(version))]), || format!("rvf {version}\n"))
}
