//! A small judge of JSON text: right or not, by the grammar of RFC 8259.

/// Fails the test unless the text is exactly one JSON value.
#[track_caller]
pub fn must_be_valid(text: &str) {
    let rest = value(text.as_bytes()).unwrap_or_else(|| panic!("no JSON value: {text}"));
    assert!(rest.is_empty(), "more behind the value: {text}");
}

/// What follows the value at the front; none if there is none.
fn value(text: &[u8]) -> Option<&[u8]> {
    match text.first()? {
        b'{' => items(&text[1..], b'}', |text| value(string(text)?.strip_prefix(b":")?)),
        b'[' => items(&text[1..], b']', value),
        b'"' => string(text),
        b'n' => text.strip_prefix(b"null"),
        b't' => text.strip_prefix(b"true"),
        _ => number(text),
    }
}

fn items(text: &[u8], close: u8, each: impl Fn(&[u8]) -> Option<&[u8]>) -> Option<&[u8]> {
    if let Some(rest) = text.strip_prefix(&[close]) {
        return Some(rest);
    }
    let mut rest = each(text)?;
    while let Some(next) = rest.strip_prefix(b",") {
        rest = each(next)?;
    }
    rest.strip_prefix(&[close])
}

fn string(text: &[u8]) -> Option<&[u8]> {
    let mut rest = text.strip_prefix(b"\"")?;
    loop {
        match rest {
            [b'"', ..] => return Some(&rest[1..]),
            [b'\\', b'u', digits @ ..] => {
                let four = digits.get(..4)?;
                four.iter().all(u8::is_ascii_hexdigit).then_some(())?;
                rest = &digits[4..];
            }
            [b'\\', b'"' | b'\\' | b'/' | b'b' | b'f' | b'n' | b'r' | b't', ..] => rest = &rest[2..],
            [b'\\', ..] | [0..=0x1F, ..] | [] => return None,
            [_, ..] => rest = &rest[1..],
        }
    }
}

/// Digits without a leading zero, perhaps with a sign, a fraction or an exponent.
fn number(text: &[u8]) -> Option<&[u8]> {
    let text = text.strip_prefix(b"-").unwrap_or(text);
    let rest = if text.first() == Some(&b'0') { &text[1..] } else { digits(text)? };
    let rest = match rest {
        [b'.', fraction @ ..] => digits(fraction)?,
        _ => rest,
    };
    match rest {
        [b'e' | b'E', b'+' | b'-', exponent @ ..] | [b'e' | b'E', exponent @ ..] => digits(exponent),
        _ => Some(rest),
    }
}

fn digits(text: &[u8]) -> Option<&[u8]> {
    let count = text.iter().take_while(|byte| byte.is_ascii_digit()).count();
    (count > 0).then(|| &text[count..])
}

#[test]
fn the_judge_knows_right_from_wrong() {
    for right in ["null", "-0", "1.5e-3", "\"a\\u00e9\\n\"", "[]", "{}", "{\"a\":[1,{\"b\":\"\"}],\"c\":0}"] {
        must_be_valid(right);
    }
    for wrong in ["", "NaN", "01", "1.", "\"\n\"", "\"\\x\"", "[1,]", "{a:1}", "{\"a\"}", "{\"a\":1", "-"] {
        assert!(value(wrong.as_bytes()).is_none_or(|rest| !rest.is_empty()), "{wrong}");
    }
}
