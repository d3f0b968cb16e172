//! The programs themselves: the batch protocol, document 01's program, and the comparer's end status.

use std::process::Command;

use comparer::case::Call;
use comparer::generate::Generator;
use comparer::process::Program;
use comparer::program::{run, Written};
use comparer::protocol::{get_response, put_case, put_response, read_case, response_bytes};
use comparer::respond::respond;
use emulator::registers::{count_of, flags_of, pointer_of, ACTIVE, MIN_INT};
use emulator::{Emulator, Machine};

const BATCH: &str = env!("CARGO_BIN_EXE_second_batch");
const RUN: &str = env!("CARGO_BIN_EXE_second_run");
const COMPARE: &str = env!("CARGO_BIN_EXE_compare");

#[test]
fn a_case_is_read_as_it_was_written() {
    let mut generator = Generator::new(2, &Call::ALL);
    for _ in 0..2_000 {
        let case = generator.case();
        let mut bytes = Vec::new();
        put_case(&mut bytes, &case);
        assert_eq!(bytes.len() % 4, 0);
        assert_eq!(read_case(&mut &bytes[..]), Ok(Some(case)));
        bytes.pop();
        assert_eq!(
            read_case(&mut &bytes[..]),
            Err("a case is cut short".into())
        );
    }
    assert_eq!(read_case(&mut &[][..]), Ok(None));
}

/// The answer word, the byte, the address: a take that is refused with 10b, and one that is accepted.
#[test]
fn a_response_tells_part_and_address() {
    let mut case = Generator::new(2, &[Call::Take]).case();
    case.machine = Machine::ZERO;
    (case.channel, case.memory, case.journal) = (2, vec![0x0A0B_0C0D; 64], vec![0; 64]);
    case.machine.regs[count_of(2)] = 1;
    case.machine.regs[flags_of(2)] = ACTIVE;
    for (pointer, head) in [
        (MIN_INT + 256 + 1, [10 + 2 * 256, 0, MIN_INT + 256 + 1]),
        (MIN_INT + 255, [0, 0x0A, 0]),
    ] {
        case.machine.regs[pointer_of(2)] = pointer;
        let response = respond(&mut Emulator::new(), case.clone());
        let mut bytes = Vec::new();
        put_response(&mut bytes, &response);
        let head: Vec<u8> = head
            .iter()
            .flat_map(|word: &u32| word.to_le_bytes())
            .collect();
        assert_eq!(bytes[..12], head);
        assert_eq!(bytes.len(), response_bytes(&case));
        assert_eq!(get_response(&bytes, &case), response);
    }
}

#[test]
fn second_batch_answers_as_the_library() {
    let mut generator = Generator::new(4, &Call::ALL);
    let cases: Vec<_> = (0..1_000).map(|_| generator.case()).collect();
    let mut input = Vec::new();
    cases.iter().for_each(|case| put_case(&mut input, case));
    let outcome = Program::find(BATCH).unwrap().run(input).unwrap();
    assert!(outcome.status.success());
    let mut rest = &outcome.output[..];
    let mut emulator = Emulator::new();
    for case in cases {
        let (bytes, more) = rest.split_at(response_bytes(&case));
        assert_eq!(get_response(bytes, &case), respond(&mut emulator, case));
        rest = more;
    }
    assert!(rest.is_empty());
}

/// The responses before it are there, nothing of its own, one line of complaint.
#[test]
fn second_batch_ends_at_a_bad_case() {
    let mut good = Vec::new();
    let case = Generator::new(4, &[Call::Clear]).case();
    put_case(&mut good, &case);
    let unknown: Vec<u8> = [good.clone(), [9u32.to_le_bytes(); 60].concat()].concat();
    let mut short = case.clone();
    (short.call, short.code) = (Call::Repeat, vec![0; 19]);
    let mut too_short = good.clone();
    put_case(&mut too_short, &short);
    let mut too_long = good.clone();
    let mut head = good[..40].to_vec();
    head[12..16].copy_from_slice(&16_401u32.to_le_bytes());
    too_long.extend(head);
    let cut = [good.clone(), good[..good.len() - 4].to_vec()].concat();
    for input in [unknown, too_long, too_short, cut] {
        let outcome = Program::find(BATCH).unwrap().run(input).unwrap();
        assert!(!outcome.status.success());
        assert_eq!(outcome.output.len(), response_bytes(&case));
        assert_eq!(outcome.complaint.lines().count(), 1);
    }
}

#[test]
fn the_program_of_document_01() {
    let code = [0x41, 0x81, 0x25, 0xF8, 0x21, 0xF0];
    let example = "00000002 00000000 00000000 6 276 6";
    let refused = "00000000 00000000 00000000 0 0 2";
    let whole = "00000001 00000001 00000001 100 4600 0";
    for (input, expected) in [
        (&code[..], example),
        (&[], refused),
        (&[0x40; 4_021], refused),
        (&[0x40; 5_000], refused),
        (&[0x41; 4_020], whole),
    ] {
        check_run(input, expected, "");
    }
}

/// DECISIONS 58: the letter in the line, the address on standard error.
#[test]
fn the_program_tells_which_access_went_outside() {
    check_run(
        &[0x6F, 0x00],
        "00000000 00000000 00000000 2 92 10a",
        "10a: fetch outside memory at 7FFFFF4A\n",
    );
    check_run(
        &[0x24, 0xF2, 0x60, 0x3F],
        "80000000 00000000 00000000 3 138 10b",
        "10b: load outside memory at 7FFFFFFC\n",
    );
    check_run(
        &[0x41, 0xE0],
        "00000001 00000000 00000000 1 46 10c",
        "10c: store outside memory at 00000001\n",
    );
}

/// Inside the comparer and as a program.
fn check_run(input: &[u8], line: &str, complaint: &str) {
    let expected = Written {
        line: format!("{line}\n"),
        complaint: complaint.into(),
    };
    assert_eq!(run(input), expected);
    let outcome = Program::find(RUN).unwrap().run(input.to_vec()).unwrap();
    assert!(outcome.status.success());
    assert_eq!(String::from_utf8_lossy(&outcome.output), expected.line);
    assert_eq!(outcome.complaint, expected.complaint);
}

fn compare(arguments: &str) -> (Option<i32>, String) {
    let output = Command::new(COMPARE)
        .args(arguments.split(' '))
        .output()
        .unwrap();
    let text = String::from_utf8_lossy(&output.stdout).into_owned();
    (output.status.code(), text)
}

#[test]
fn the_comparer_ends_with_a_clear_status() {
    let (status, text) = compare("second second_batch 1 3000");
    assert_eq!(status, Some(0), "{text}");
    assert!(text.contains("3000 cases, 0 differ"));
    assert_eq!(compare("--seq second second_batch 1 3000").0, Some(0));
    assert_eq!(
        compare("--calls tick,undo second second_batch 1 3000").0,
        Some(0)
    );
    assert_eq!(compare("--run second second_run 1 20").0, Some(0));
    let (status, text) = compare("second wrong:UnsignedGt 1 20000");
    assert_eq!(status, Some(1), "{text}");
    assert_eq!(compare("--asm second_asm 1 2000").0, Some(0));
    assert_eq!(compare("--list second_list 1 500").0, Some(0));
    let (status, text) = compare("--list --addresses second_list 1 500");
    assert_eq!(status, Some(0), "{text}");
    assert_eq!(compare("--list-asm second_list second_asm 1 40").0, Some(0));
    let (status, text) = compare("--asm wrong:PfixForNegative 1 10");
    assert_eq!(status, Some(1), "{text}");
    assert!(text.contains("ldc -10: 60 46 against 2F 2F"), "{text}");
    assert_eq!(compare("--list-asm second second_list 1 1").0, Some(1));
    assert_eq!(compare("--list second_asm 1 1").0, Some(2));
    assert_eq!(compare("--asm second_asm second_asm 1 1").0, Some(2));
    assert_eq!(compare("second no_such_program 1 10").0, Some(2));
    assert_eq!(compare("second second_run 1 10").0, Some(2));
    assert_eq!(compare("second second 1").0, Some(2));
}
