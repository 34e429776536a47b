//! The examples print what is stored beside them. `cargo test` builds them before this runs.

use std::process::Command;

fn prints(name: &str, stored: &str) {
    let test = std::env::current_exe().expect("a path");
    let built = test.ancestors().nth(2).expect("the folder of the build");
    let run = Command::new(built.join("examples").join(name)).output();
    let run = run.expect("`cargo test` has built the examples");
    assert!(run.status.success());
    assert_eq!(String::from_utf8_lossy(&run.stdout), stored);
}

#[test]
fn resolve() {
    prints("resolve", include_str!("../examples/resolve.out"));
}

#[test]
fn refile() {
    prints("refile", include_str!("../examples/refile.out"));
}

#[test]
fn daily() {
    prints("daily", include_str!("../examples/daily.out"));
}

/// A program that resolves a name and refiles a file needs no more than 40 lines.
#[test]
fn forty_lines() {
    for text in [
        include_str!("../examples/resolve.rs"),
        include_str!("../examples/refile.rs"),
    ] {
        assert!(text.lines().count() <= 40);
    }
}
