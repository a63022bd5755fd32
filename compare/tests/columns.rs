//! Calls by name: the script that they become, what is wrong with other lines, and the program `tell` on both. The
//! scenarios are made from this form.

mod common;

use common::scenario_files;
use judge::driver::Line;
use judge::tell::columns::columns;
use judge::tell::form::CALLS;
use std::io::Write;
use std::path::Path;
use std::process::{Child, Command, Output, Stdio};

#[test]
fn calls_by_name() {
    let calls = b"# a comment\n\nopen 1 # f is 1\n  view\t0   01\nverbatim x # y\n\
        prepare-on-acc 1 1 2\nverbatim \nrecover 2 7 8";
    let script = "       0       1       0\n       5       0       1\nx # y\n\
        \x20      2       1       1       2\n\n      12       2       0       7       8";
    assert_eq!(String::from_utf8(columns(calls).unwrap()).unwrap(), script);
    assert_eq!(columns(b"\xef\xbb\xbfopen 1\r\n").unwrap(), b"       0       1       0\n");
}

#[test]
fn lines_that_are_no_call_by_name() {
    let wrong = columns(
        b"open 1\nacumulate 0 1\nview 0\nreboot 0 1\nview 0 +1\nview 0 100000000\nprepare-on-acc 0 1\nverbatim\n\
            \x20      5       0       1\n",
    )
    .unwrap_err();
    let calls = "the calls are open, block, prepare-on-acc, prepare-on-commits, store, view, accumulate, decide, \
                 reboot, reserve, request, reply, recover";
    assert_eq!(
        wrong,
        [
            format!("line 2: no call 'acumulate': {calls}"),
            "line 3: 1 number, where 2 must stand: view REPLICA VIEW".to_string(),
            "line 4: 2 numbers, where 1 must stand: reboot REPLICA".to_string(),
            "line 5: '+1' is no number".to_string(),
            "line 6: 100000000 is above 99,999,999, the greatest number of eight columns".to_string(),
            "line 7: 2 numbers, where 3 must stand: prepare-on-acc REPLICA BLOCK ACC".to_string(),
            format!("line 8: no call 'verbatim': {calls}"),
            "line 9: '5' is no call's name: is this a script already?".to_string(),
        ]
    );
    assert_eq!(columns(b"view 0 \x1b[2J").unwrap_err(), ["line 1: '\\u{1b}[2J' is no number"]);
    assert!(columns(b"\x1bopen 1").unwrap_err()[0].starts_with("line 1: no call '\\u{1b}open': "));
    let long = format!("decide 0{}\n", " 1".repeat(32));
    assert_eq!(
        columns(long.as_bytes()).unwrap_err(),
        ["line 1: 33 numbers, where 1 to 32 must stand: decide REPLICA COMMIT.."]
    );
}

/// Every call by its name is the line of its code, with each number in its field.
#[test]
fn every_call() {
    let cases = [
        ("open 1", Line::new(0, 1, 0, &[])),
        ("open 1 2 3", Line::new(0, 1, 0, &[2, 3])),
        ("block 5", Line::new(1, 0, 5, &[])),
        ("prepare-on-acc 1 2 3", Line::new(2, 1, 2, &[3])),
        ("prepare-on-commits 1 2 3 4", Line::new(3, 1, 2, &[3, 4])),
        ("store 1 2", Line::new(4, 1, 2, &[])),
        ("view 1 2", Line::new(5, 1, 2, &[])),
        ("accumulate 1 2 3", Line::new(6, 1, 0, &[2, 3])),
        ("decide 1 2 3", Line::new(7, 1, 0, &[2, 3])),
        ("reboot 1", Line::new(8, 1, 0, &[])),
        ("reserve 1", Line::new(9, 1, 0, &[])),
        ("request 1", Line::new(10, 1, 0, &[])),
        ("reply 1 2", Line::new(11, 1, 2, &[])),
        ("recover 1 2 3", Line::new(12, 1, 0, &[2, 3])),
    ];
    for (call, line) in &cases {
        assert_eq!(columns(call.as_bytes()).unwrap(), line.text().into_bytes(), "{call}");
    }
    assert!(CALLS.iter().all(|form| cases.iter().any(|(_, line)| line.code == form.code)));
}

fn feeds(text: &[u8]) -> usize {
    text.iter().filter(|&&byte| byte == b'\n').count()
}

#[test]
fn scenarios_are_made_from_calls() {
    let scripts = scenario_files("txt");
    assert_eq!(scripts.len(), scenario_files("calls").len());
    for script in scripts {
        let calls = std::fs::read(script.with_extension("calls")).unwrap();
        let made = columns(&calls).unwrap();
        assert!(made == std::fs::read(&script).unwrap(), "{} is not made from its calls", script.display());
        assert_eq!(feeds(&calls), feeds(&made), "{}: a line of its calls is no line of it", script.display());
    }
}

fn started(arguments: &[&str]) -> Child {
    let program = env!("CARGO_BIN_EXE_tell");
    let piped = Stdio::piped;
    Command::new(program).args(arguments).stdin(piped()).stdout(piped()).stderr(piped()).spawn().unwrap()
}

/// The program with these arguments on this input.
fn tell(arguments: &[&str], input: &str) -> Output {
    let mut child = started(arguments);
    // One that is not read, as with --help, may be closed already.
    let _ = child.stdin.take().unwrap().write_all(input.as_bytes());
    child.wait_with_output().unwrap()
}

#[test]
fn the_program() {
    let made = tell(&["--columns"], "open 1\n");
    assert_eq!((made.status.code(), made.stdout.as_slice()), (Some(0), b"       0       1       0\n".as_slice()));
    let wrong = tell(&["--columns"], "open 1\nopen\nview x\n");
    assert_eq!((wrong.status.code(), wrong.stdout.len()), (Some(1), 0));
    let errors = "tell: line 2: 0 numbers, where 1 to 32 must stand: open F STEP..\ntell: line 3: 'x' is no number\n";
    assert_eq!(String::from_utf8(wrong.stderr).unwrap(), errors);
    let help = tell(&["--help"], "");
    assert_eq!(help.status.code(), Some(0));
    assert!(String::from_utf8(help.stdout).unwrap().starts_with("usage: ./tell"));
    for arguments in [&["FILE"] as &[&str], &["--svg"], &["--columns", "FILE"]] {
        let bad = tell(arguments, "");
        assert_eq!((bad.status.code(), bad.stdout.len()), (Some(2), 0), "{arguments:?}");
        assert!(String::from_utf8(bad.stderr).unwrap().starts_with("usage: ./tell"));
    }
    let many = tell(&["--columns"], &"5 0 1\n".repeat(12));
    let errors = String::from_utf8(many.stderr).unwrap();
    assert_eq!((errors.lines().count(), errors.lines().last()), (11, Some("tell: and 2 lines more")));
    let file = Path::new(env!("CARGO_TARGET_TMPDIR")).join("file");
    let draw = || tell(&["--svg", file.to_str().unwrap()], "       0       1       0\n").status.code();
    std::fs::write(&file, "kept").unwrap();
    assert_eq!((draw(), std::fs::read(&file).unwrap()), (Some(1), b"kept".to_vec()));
    std::fs::remove_file(&file).unwrap();
    assert_eq!((draw(), draw()), (Some(0), Some(0)));
    assert!(std::fs::read(&file).unwrap().starts_with(b"<svg"));
    let nowhere = tell(&["--svg", "/no/such/folder/picture.svg"], "");
    assert_eq!((nowhere.status.code(), nowhere.stdout.len()), (Some(1), 0));
}

#[test]
fn a_reader_that_goes_away() {
    let mut child = started(&["--columns"]);
    drop(child.stdout.take());
    child.stdin.take().unwrap().write_all(b"open 1\n").unwrap();
    let ended = child.wait_with_output().unwrap();
    assert_eq!((ended.status.code(), ended.stderr.len()), (Some(0), 0));
}
