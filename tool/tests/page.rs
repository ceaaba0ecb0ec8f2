//! The pages `docs/TOOL.md` and `docs/TRAINING.md`: their commands are run again, and what they
//! print is compared.

mod common;

use common::folder;
use std::path::Path;
use std::process::Command;

/// The commands of the page's fenced blocks, each with the lines that follow it there.
fn commands(page: &str) -> Vec<(String, String)> {
    let mut commands: Vec<(String, String)> = Vec::new();
    let fenced = page.split("```\n").skip(1).step_by(2);
    for line in fenced.flat_map(str::lines) {
        match (line.strip_prefix("$ "), commands.last_mut()) {
            (Some(command), _) => commands.push((command.to_string(), String::new())),
            (None, Some((_, printed))) => *printed += &format!("{line}\n"),
            (None, None) => panic!("a block begins without a command: {line}"),
        }
    }
    commands
}

/// Runs a page's commands in a folder with the samples in it. There are more than `least`.
fn must_print_what_it_shows(name: &str, least: usize) {
    let root = Path::new(env!("CARGO_MANIFEST_DIR")).join("..");
    let page = root.join("docs").join(name);
    let commands = commands(&std::fs::read_to_string(page).expect("the page is there"));
    assert!(commands.len() > least, "{} commands", commands.len());
    let folder = folder(name);
    std::fs::create_dir(folder.join("samples")).expect("a folder");
    for sample in std::fs::read_dir(root.join("samples")).expect("the samples are there") {
        let sample = sample.expect("a name");
        if sample.file_type().expect("a type").is_file() {
            std::fs::copy(sample.path(), folder.join("samples").join(sample.file_name())).expect("copied");
        }
    }
    let program = Path::new(env!("CARGO_BIN_EXE_rvf")).parent().expect("a folder").to_path_buf();
    let path = std::env::var_os("PATH").unwrap_or_default();
    let path = std::env::join_paths([program].into_iter().chain(std::env::split_paths(&path))).expect("a path");
    for (command, printed) in commands {
        let script = format!("exec 2>&1; {command}");
        let ran = Command::new("sh")
            .args(["-c", &script])
            .env("PATH", &path)
            .current_dir(&folder)
            .output()
            .expect("it runs");
        assert_eq!(String::from_utf8_lossy(&ran.stdout), printed, "$ {command}");
    }
}

#[test]
fn the_page_shows_what_the_program_prints() {
    must_print_what_it_shows("TOOL.md", 10);
}

/// The exercises; each error that the rules name has one.
#[test]
fn the_exercises_show_what_the_program_prints() {
    must_print_what_it_shows("TRAINING.md", 30);
}
