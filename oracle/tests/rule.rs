//! 02, Wish 2: what is compiled is the four files, but for one branch of quorumread.rs, which a copy
//! has replaced; with the old rule it is the four files.

use std::path::{Path, PathBuf};
use std::{env, fs};

use oracle::rule::{OLD_RULE, changed_lines, first_value_kept};
use oracle::source_files;

fn file(module: &str) -> String {
    let folder = match env::var_os("SUMMERSET_SRC") {
        Some(folder) if !folder.is_empty() => PathBuf::from(folder),
        _ => Path::new(env!("CARGO_MANIFEST_DIR")).join("../../shared/docs/src"),
    };
    let path = folder.join(format!("src--src--protocols--multipaxos--{module}.rs.txt"));
    fs::read_to_string(&path).unwrap_or_else(|error| panic!("{}: {error}", path.display()))
}

#[test]
fn one_line_of_what_is_compiled_is_not_the_files() {
    let mut changed = Vec::new();
    for (module, path) in source_files() {
        let (file, compiled) = (file(module), fs::read_to_string(path).expect("what is compiled"));
        assert_eq!(file.lines().count(), compiled.lines().count(), "{module}");
        for (old, new) in changed_lines(&file, &compiled) {
            changed.push((module, old.trim().to_string(), new.trim().to_string()));
        }
        if OLD_RULE || module != "quorumread" {
            assert!(file == compiled, "{module}");
        }
    }
    let branch = ("*max_reply = Some((slot, None));", "*max_reply = Some((slot, Some(value)));");
    let kept = ("quorumread", branch.0.to_string(), branch.1.to_string());
    assert_eq!(changed, if OLD_RULE { Vec::new() } else { vec![kept] });
}

/// The line stands three times in the file; the copy changes it where a value meets nothing.
#[test]
fn it_is_the_line_of_a_value_that_meets_nothing() {
    let file = file("quorumread");
    let copy = first_value_kept(&file).expect("the branch stands there once");
    let at = file.lines().zip(copy.lines()).position(|(old, new)| old != new).expect("a change");
    let before: Vec<&str> = copy.lines().take(at).map(str::trim).collect();
    assert_eq!(
        before[before.len() - 2..],
        ["Some((slot, Some(value))) => match *max_reply {", "None => {"]
    );
}

#[test]
fn a_file_without_the_branch_or_with_two_is_refused() {
    let file = file("quorumread");
    let copy = first_value_kept(&file).expect("the branch stands there once");
    for (text, found) in [(copy, 0), (format!("{file}{file}"), 2), (String::new(), 0)] {
        let wrong = first_value_kept(&text).expect_err("no copy");
        assert!(wrong.ends_with(&format!("found {found} times")), "{wrong}");
    }
}
