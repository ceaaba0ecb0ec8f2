//! Vectors written as text: a line for each, its id and its values.

use crate::args::Reading;
use crate::rounding::held;
use crate::words::decimal;
use rvf::{Dtype, Encoding, Refusal, Vectors};

/// The longest text that is read; a batch of vectors takes far less.
pub const TEXT_LIMIT: usize = 16_777_216;

/// Why a text makes no payload.
#[derive(Debug, PartialEq, Eq)]
pub enum Wrong {
    /// Words about the text, mostly about one of its lines.
    Text(String),
    /// The library's writer refused.
    Refused(Refusal),
}

/// The vector of a line.
struct Vector {
    line: usize,
    id: u64,
    values: Vec<f32>,
}

/// The payload of one block that holds the vectors of a text, by rising ids.
pub fn payload(text: &[u8], reading: Reading) -> Result<Vec<u8>, Wrong> {
    if text.len() > TEXT_LIMIT {
        return Err(Wrong::Text(format!("has more than {TEXT_LIMIT} bytes; append it in several batches")));
    }
    if !reading.no_final_newline && text.last().is_some_and(|&byte| byte != b'\n') {
        let lines = text.iter().filter(|&&byte| byte == b'\n').count();
        return Err(at(
            lines + 1,
            "has no line feed at its end, so its last value may be cut short; if it is whole, add --no-final-newline",
        ));
    }
    let mut vectors = vectors(text, reading)?;
    let Some(dim) = vectors.first().map(|vector| vector.values.len()) else {
        return Err(Wrong::Text("has no vectors; a line is 'ID VALUE VALUE ...'".to_string()));
    };
    if let Some(odd) = vectors.iter().find(|vector| vector.values.len() != dim) {
        let (line, count) = (odd.line, odd.values.len());
        return Err(at(line, format!("has {count} values, the first vector has {dim}")));
    }
    // By id and line, so that of two equal ids the later line is the doubled one.
    vectors.sort_by_key(|vector| (vector.id, vector.line));
    if let Some(pair) = vectors.windows(2).find(|pair| pair[0].id == pair[1].id) {
        return Err(at(pair[1].line, format!("id {} stands on line {} already", pair[1].id, pair[0].line)));
    }
    write(&vectors, dim)
}

/// The columns are all values of dimension 0 first, in the order of the ids.
fn write(vectors: &[Vector], dim: usize) -> Result<Vec<u8>, Wrong> {
    let ids: Vec<u64> = vectors.iter().map(|vector| vector.id).collect();
    let column = |index: usize| vectors.iter().flat_map(move |vector| vector.values[index].to_le_bytes());
    let columns: Vec<u8> = (0..dim).flat_map(column).collect();
    let encoding = Encoding::Delta { interval: 0 };
    let input = Vectors { ids: &ids, columns: &columns, dim: dim as u64, dtype: Dtype::F32, tier: 0, encoding };
    rvf::vectors(&input).map_err(Wrong::Refused)
}

fn vectors(text: &[u8], reading: Reading) -> Result<Vec<Vector>, Wrong> {
    let mut vectors = Vec::new();
    for (index, bytes) in text.split(|&byte| byte == b'\n').enumerate() {
        let line = index + 1;
        let words = std::str::from_utf8(bytes).map_err(|_| at(line, "is no text in UTF-8"))?;
        // What stands behind # is a comment.
        let mut words = words.split('#').next().unwrap_or("").split_whitespace();
        let Some(id) = words.next() else {
            continue;
        };
        let id =
            decimal(id).ok_or_else(|| at(line, format!("the id must be a whole number of 64 bits, not '{id}'")))?;
        let values: Vec<f32> = words.map(|word| value(line, word, reading)).collect::<Result<_, _>>()?;
        if values.is_empty() {
            return Err(at(line, "has an id and no values"));
        }
        vectors.push(Vector { line, id, values });
    }
    Ok(vectors)
}

/// A value. A number too large for an f32 would silently become infinite, so it is refused;
/// one that an f32 does not hold would become another, so that must be said to be right.
/// `inf` and `NaN` are what they say.
fn value(line: usize, word: &str, reading: Reading) -> Result<f32, Wrong> {
    match word.parse::<f32>() {
        Err(_) => Err(at(line, format!("'{word}' is no number"))),
        Ok(value) if value.is_infinite() && word.bytes().any(|byte| byte.is_ascii_digit()) => {
            Err(at(line, format!("'{word}' is too large for an f32")))
        }
        Ok(value) if !reading.round && !held(word, value) => Err(at(
            line,
            format!("'{word}' would be rounded to {value}, which an f32 holds; if that will do, add --round"),
        )),
        Ok(value) => Ok(value),
    }
}

fn at(line: usize, words: impl AsRef<str>) -> Wrong {
    Wrong::Text(format!("line {line}: {}", words.as_ref()))
}

#[cfg(test)]
mod tests {
    use super::*;

    #[test]
    fn lines_become_vectors_by_rising_ids() {
        let text = b"# positions\n9 1.5 -2\n\n 3\t0.25 inf # newest\r\n18446744073709551615 -0 NaN\n";
        let payload = payload(text, Reading::default()).expect("the text is right");
        let words = |vector: rvf::Vector| vector.components().map(|c| c.to_string()).collect::<Vec<_>>().join(" ");
        let values = |id| rvf::vector_of(&payload, id).map(words);
        assert_eq!(values(9), Ok("1.5 -2".to_string()));
        assert_eq!(values(3), Ok("0.25 inf".to_string()));
        assert_eq!(values(u64::MAX), Ok("-0 NaN".to_string()));
        assert_eq!(values(4), Err(Refusal::NoVector));
    }

    #[test]
    fn what_is_wrong_names_its_line() {
        let cases: [(&[u8], &str); 15] = [
            (b"", "has no vectors"),
            (b"# nothing\n\n", "has no vectors"),
            (b"1 2\n3 4\n1 5\n", "line 3: id 1 stands on line 1 already"),
            (b"1 2\n\n3 4 5\n", "line 3: has 2 values, the first vector has 1"),
            (b"1 2\n3\n", "line 2: has an id and no values"),
            (b"-1 2\n", "line 1: the id must be a whole number of 64 bits, not '-1'"),
            (b"18446744073709551616 2\n", "line 1: the id must be"),
            (b"1 two\n", "line 1: 'two' is no number"),
            (b"1 1\n2 1e39\n", "line 2: '1e39' is too large for an f32"),
            (b"1 1\n\xFF\n", "line 2: is no text in UTF-8"),
            (b"1 102", "line 1: has no line feed at its end"),
            (b"1 1\n2 102", "line 2: has no line feed at its end, so its last value may be cut short"),
            (b"1 1\n# end", "line 2: has no line feed at its end"),
            (b"1 1\n2 16777217\n", "line 2: '16777217' would be rounded to 16777216, "),
            (b"1 1e-50\n", "line 1: '1e-50' would be rounded to 0, "),
        ];
        for (text, wanted) in cases {
            match payload(text, Reading::default()) {
                Err(Wrong::Text(words)) => assert!(words.starts_with(wanted), "{words}"),
                other => panic!("{wanted}: {other:?}"),
            }
        }
    }
    /// What is refused as it stands, and taken where it is said to be right.
    #[test]
    fn a_last_line_and_rounding_by_option() {
        let value = |text: &[u8], reading| {
            let vector = rvf::vector_of(&payload(text, reading).expect("taken"), 1).expect("it is there");
            vector.components().map(|c| c.to_string()).collect::<Vec<_>>().join(" ")
        };
        let (no_final_newline, round) = (true, true);
        assert_eq!(value(b"1 102", Reading { no_final_newline, round: false }), "102");
        assert_eq!(value(b"1 102\n", Reading { no_final_newline, round: false }), "102");
        assert_eq!(value(b"1 16777217 1e-50\n", Reading { no_final_newline: false, round }), "16777216 0");
        assert_eq!(value(b"1 16777217", Reading { no_final_newline, round }), "16777216");
        // Too large stays too large.
        assert!(payload(b"1 1e39\n", Reading { no_final_newline, round }).is_err());
    }
}
