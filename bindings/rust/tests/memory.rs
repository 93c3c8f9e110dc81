//! Little memory. A process of its own parses under each limit: a tree that there is room for is never refused because a guess took the room.
#![cfg(target_os = "linux")]
use std::env;
use std::process::{Command, Stdio};

use dumyroke::Parser;

const BYTES: usize = 8 << 20;

/// Whether a process that may have so many kilobytes parses the text.
fn parses_with(kilobytes: usize) -> bool {
    let script = format!("ulimit -v {kilobytes}; exec \"$0\" --exact child --ignored --test-threads=1");
    let mut shell = Command::new("sh");
    shell.args(["-c", &script]).arg(env::current_exe().unwrap()).env("DUMYROKE_CHILD", "1");
    shell.stdout(Stdio::null()).stderr(Stdio::null()).status().unwrap().success()
}

#[test]
#[ignore = "a process of another test"]
fn child() {
    if env::var_os("DUMYROKE_CHILD").is_some() {
        let text = " ".repeat(BYTES) + "{a}";
        assert_eq!(Parser::new(&text).parse().errors().count(), 0);
    }
}

#[test]
fn a_guess_takes_nothing_that_a_parse_needs() {
    // from what starts a process to more than the guess, of 12 bytes for each byte of the text, and all else together
    let limits = (16 << 10..320 << 10).step_by(8 << 10);
    let parsed: Vec<bool> = limits.map(parses_with).collect();
    let first = parsed.iter().position(|&is_parsed| is_parsed).expect("the largest limit is enough");
    assert!(parsed[first..].iter().all(|&is_parsed| is_parsed), "{parsed:?}");
    assert!(first < parsed.len() / 2, "{parsed:?}");
}
