//! Paths in suggested commands, quoted so that a shell takes them as one word.

use std::path::Path;

pub fn quoted(path: &Path) -> String {
    let text = path.to_string_lossy();
    // A name that begins with a dash would be taken for an option.
    let text = if text.starts_with('-') { format!("./{text}") } else { text.into_owned() };
    let plain = |letter: char| letter.is_ascii_alphanumeric() || "_./@%+=:,-".contains(letter);
    if !text.is_empty() && text.chars().all(plain) { text } else { format!("'{}'", text.replace('\'', "'\\''")) }
}

#[cfg(test)]
mod tests {
    use super::*;

    #[test]
    fn a_shell_takes_it_as_one_word() {
        let cases =
            [("a/b-1.rvf", "a/b-1.rvf"), ("my file", "'my file'"), ("it's", "'it'\\''s'"), ("-q", "./-q"), ("", "''")];
        for (path, wanted) in cases {
            assert_eq!(quoted(Path::new(path)), wanted);
        }
    }

    #[cfg(unix)]
    #[test]
    fn what_the_shell_says_of_it() {
        for name in [
            "plain",
            "two words",
            "a'b\"c",
            "$HOME `x`",
            "semi;colon&",
            "*?[a]",
            "back\\slash",
            "line\nfeed",
            "~",
            "#",
        ] {
            let script = format!("printf %s {}", quoted(Path::new(name)));
            let ran = std::process::Command::new("sh").args(["-c", &script]).output().expect("the shell runs");
            assert_eq!(String::from_utf8_lossy(&ran.stdout), name);
        }
    }
}
