//! The programs as they are started.

mod common;
use common::*;
use std::io::Write;
use std::path::PathBuf;
use std::process::{Command, Output, Stdio};

fn started(program: &str, arguments: &[&str], input: &[u8]) -> Output {
    let mut child = Command::new(program)
        .args(arguments)
        .stdin(Stdio::piped())
        .stdout(Stdio::piped())
        .stderr(Stdio::piped())
        .spawn()
        .unwrap();
    let mut stdin = child.stdin.take().unwrap();
    let input = input.to_vec();
    // The program may end before it has read everything.
    let feeder = std::thread::spawn(move || {
        let _ = stdin.write_all(&input);
    });
    let output = child.wait_with_output().unwrap();
    feeder.join().unwrap();
    output
}

fn temporary(name: &str) -> PathBuf {
    PathBuf::from(env!("CARGO_TARGET_TMPDIR")).join(name)
}

#[test]
fn tally_prints_its_line() {
    let tally = env!("CARGO_BIN_EXE_tally");
    let file = file_of(&[lit(4, 3), lit(5, 0xFFFE), mpy(0, 0x54, 0, 0, 0)]);
    assert_eq!(started(tally, &[], &file).stdout, b"done 3 -12 0 0000\n");
    assert_eq!(started(tally, &[], &[]).stdout, b"refused1\n");
    let long = vec![0; 100_000];
    assert_eq!(started(tally, &[], &long).stdout, b"refused1\n");
}

#[test]
fn generate_and_cases_agree() {
    let (stream, lines) = (temporary("stream"), temporary("lines"));
    let names = [stream.to_str().unwrap(), lines.to_str().unwrap()];
    let generate = env!("CARGO_BIN_EXE_generate");
    let output = started(generate, &["9", "60", names[0], names[1]], &[]);
    assert!(output.status.success());
    let stream = std::fs::read(stream).unwrap();
    let lines = std::fs::read(lines).unwrap();
    let cases = env!("CARGO_BIN_EXE_cases");
    assert_eq!(started(cases, &[], &stream).stdout, lines);
    let short = started(cases, &[], &stream[..stream.len() - 1]).stdout;
    assert!(short.ends_with(b"\nshort\n"));
}

#[test]
fn generate_refuses_bad_arguments() {
    let generate = env!("CARGO_BIN_EXE_generate");
    for arguments in [
        &["1", "2"][..],
        &["x", "1", "a", "b"],
        &["1", "-1", "a", "b"],
    ] {
        let output = started(generate, arguments, &[]);
        assert!(!output.status.success());
        assert!(!output.stderr.is_empty());
    }
}

#[test]
fn files_writes_requests_and_answers() {
    let files = env!("CARGO_BIN_EXE_files");
    let stream = started(files, &["requests"], &[]).stdout;
    assert!(stream == stored_requests("stdin"));
    let answers = started(files, &["answers"], &stream).stdout;
    assert!(answers == stored_requests("stdout"));
    let random = started(files, &["random", "7", "20"], &[]).stdout;
    assert_eq!(random[..2], [20, 0]);
    let answers = started(files, &["answers"], &random).stdout;
    assert_eq!(answers.iter().filter(|&&byte| byte == b'\n').count(), 20);
}

/// With these arguments and one byte of input the program fails with a message.
fn refuses(program: &str, all: &[&[&str]]) {
    for arguments in all {
        let output = started(program, arguments, &[1]);
        assert!(!output.status.success(), "{arguments:?}");
        assert!(output.stdout.is_empty());
        assert!(!output.stderr.is_empty());
    }
}

#[test]
fn bad_arguments_and_what_is_no_stream_are_refused() {
    let random: [&[&str]; 3] = [
        &["random", "1"],
        &["random", "x", "1"],
        &["random", "1", "65536"],
    ];
    let others: [&[&str]; 2] = [&[], &["other"]];
    let (files, steps) = (env!("CARGO_BIN_EXE_files"), env!("CARGO_BIN_EXE_steps"));
    for program in [files, steps] {
        refuses(program, &random);
        refuses(program, &others);
    }
    refuses(files, &[&["answers"]]);
    refuses(steps, &[&["lines"]]);
    refuses(env!("CARGO_BIN_EXE_runs"), &others);
    refuses(env!("CARGO_BIN_EXE_speed"), &others);
    refuses(env!("CARGO_BIN_EXE_speed"), &[&["case"], &["case", "x"]]);
}

#[test]
fn steps_writes_cases_and_lines() {
    let steps = env!("CARGO_BIN_EXE_steps");
    let stream = started(steps, &["cases"], &[]).stdout;
    assert!(stream == stored_step_files("stdin"));
    let lines = started(steps, &["lines"], &stream).stdout;
    assert!(lines == stored_step_files("stdout"));
    let random = started(steps, &["random", "7", "300"], &[]).stdout;
    assert_eq!(random[..2], [44, 1]);
    assert_eq!(random, started(steps, &["random", "7", "300"], &[]).stdout);
    let lines = started(steps, &["lines"], &random).stdout;
    assert_eq!(lines.iter().filter(|&&byte| byte == b'\n').count(), 300);
}

#[test]
fn runs_writes_the_stored_stream_and_its_parts() {
    let runs = env!("CARGO_BIN_EXE_runs");
    let stream = started(runs, &["stream"], &[]).stdout;
    assert!(stream == stored_case_files("stdin"));
    let cases = env!("CARGO_BIN_EXE_cases");
    assert!(started(cases, &[], &stream).stdout == stored_case_files("stdout"));
    let parts = started(runs, &["parts"], &[]).stdout;
    assert!(parts.starts_with(b"budgets "));
}

#[test]
fn files_writes_the_example_and_tally_its_line() {
    let files = env!("CARGO_BIN_EXE_files");
    let file = started(files, &["example"], &[]).stdout;
    assert_eq!(file, stored_tally("stdin"));
    let tally = env!("CARGO_BIN_EXE_tally");
    assert_eq!(started(tally, &[], &file).stdout, stored_tally("stdout"));
}

#[test]
fn speed_writes_the_stored_cases() {
    let speed = env!("CARGO_BIN_EXE_speed");
    for name in ["repeat", "loop", "reversed"] {
        let case = started(speed, &["case", name], &[]).stdout;
        assert_eq!(case, stored_speed(name));
    }
}

#[test]
fn assemble_writes_a_program_file_or_says_why_not() {
    let assemble = env!("CARGO_BIN_EXE_assemble");
    for name in simulator::samples::NAMES {
        let output = started(assemble, &[], &stored_sample(&format!("{name}.txt")));
        assert!(output.status.success() && output.stderr.is_empty());
        assert_eq!(output.stdout, stored_sample(&format!("{name}.bin")));
    }
    let long = vec![b'#'; 100_000];
    let refused = [
        (&b""[..], "refused1\n"),
        (b"00 00 00 00 00 00 00 00\n", "refused4\n"),
        (b"13 00 00 00 00 00 00 00\n", "refused5\n"),
        (b"MAC\n", "badtext\n"),
        (&long, "badtext\n"),
    ];
    for (text, why) in refused {
        let output = started(assemble, &[], text);
        assert_eq!(output.status.code(), Some(1));
        assert!(output.stdout.is_empty());
        assert_eq!(output.stderr, why.as_bytes());
    }
}

#[test]
fn samples_writes_the_cases() {
    let samples = env!("CARGO_BIN_EXE_samples");
    let cases = env!("CARGO_BIN_EXE_cases");
    for name in simulator::samples::NAMES {
        let file = stored_sample(&format!("{name}.bin"));
        let case = started(samples, &[name], &file).stdout;
        assert_eq!(case, stored_sample(&format!("{name}.case")));
        let line = started(cases, &[], &case).stdout;
        assert_eq!(line, stored_sample(&format!("{name}.line")));
    }
    let output = started(samples, &["other"], &[]);
    assert!(!output.status.success());
    assert!(output.stdout.is_empty() && !output.stderr.is_empty());
}
