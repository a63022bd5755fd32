//! The program `second` on pipes: prompt answers, bytes in any pieces, closed input and output. The program `text`.

use judge::benchmark::inputs::text_only;
use judge::comparison::programs::{output, pieces, Arrival, MAX_PIECE};
use judge::generate::scripts::script;
use judge::mistake::Correct;
use judge::script::{run, ANSWER_BYTES};
use std::io::{BufRead, BufReader, Write};
use std::process::{Child, Command, Stdio};

fn second() -> Child {
    let program = env!("CARGO_BIN_EXE_second");
    Command::new(program).stdin(Stdio::piped()).stdout(Stdio::piped()).spawn().unwrap()
}

#[test]
fn answers_come_before_the_input_ends() {
    let mut child = second();
    let mut input = child.stdin.take().unwrap();
    let mut output = BufReader::new(child.stdout.take().unwrap());
    let mut answer = String::new();
    for byte in b"       0       1       0\n" {
        input.write_all(&[*byte]).unwrap();
        input.flush().unwrap();
    }
    output.read_line(&mut answer).unwrap();
    assert_eq!(answer, "       1       0       3       0\n");
    input.write_all(b"       5       0       1").unwrap();
    drop(input);
    answer.clear();
    output.read_line(&mut answer).unwrap();
    assert_eq!(answer, "       2       0       0       0\n");
    assert!(child.wait().unwrap().success());
}

#[test]
fn a_closed_output_ends_it() {
    let mut child = second();
    drop(child.stdout.take());
    let mut input = child.stdin.take().unwrap();
    let block = "\n".repeat(1 << 16);
    let written = (0..1000).all(|_| input.write_all(block.as_bytes()).is_ok());
    assert!(!written);
    drop(input);
    assert!(!child.wait().unwrap().success());
}

#[test]
fn no_input_gives_no_output() {
    let mut child = second();
    drop(child.stdin.take());
    let outcome = child.wait_with_output().unwrap();
    assert!(outcome.status.success() && outcome.stdout.is_empty());
}

#[test]
fn however_the_bytes_arrive() {
    let text = script(4).text;
    let expected = run(Correct, &text);
    for arrival in [Arrival::File, Arrival::Pipe, Arrival::Pieces(1), Arrival::Pieces(2), Arrival::Pieces(3)] {
        assert!(output(env!("CARGO_BIN_EXE_second"), &text, arrival).unwrap() == expected, "{arrival:?}");
    }
}

#[test]
fn pieces_are_the_input() {
    let text = script(4).text;
    for seed in 0..8 {
        let pieces = pieces(&text, seed);
        assert!(pieces.concat() == text);
        assert!(pieces.iter().all(|piece| (1..=MAX_PIECE as usize).contains(&piece.len())));
    }
}

#[test]
fn the_transcription_on_text_alone() {
    let script = text_only(1, 3000);
    let expected = run(Correct, &script);
    assert_eq!(expected.len(), ANSWER_BYTES * 3000);
    for arrival in [Arrival::File, Arrival::Pieces(1), Arrival::Pieces(2)] {
        assert!(output(env!("CARGO_BIN_EXE_text"), &script, arrival).unwrap() == expected, "{arrival:?}");
    }
}
