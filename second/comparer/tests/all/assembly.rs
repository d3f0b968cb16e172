//! The reference assembler and lister of document 02, No. 2, and how programs are held against them.

use std::collections::BTreeMap;

use comparer::assembly::{
    chains, hold_assembler, hold_both, hold_lister, Reference, Slip, Tool, NFIX, PFIX,
};
use comparer::instructions::{FUNCTIONS, OPERATIONS};
use comparer::random::Random;
use emulator::registers::{A, OREG};
use emulator::Emulator;

const SECOND: Reference = Reference::RIGHT;

fn ldc(operand: i32) -> Vec<u8> {
    SECOND.assemble(4, operand).expect("ldc is a function")
}

/// Document 02, No. 2, and document 01's loading lines.
#[test]
fn the_worked_chains() {
    assert_eq!(ldc(16), [0x21, 0x40]);
    assert_eq!(ldc(-256), [0x6F, 0x40]);
    assert_eq!(ldc(-257), [0x21, 0x60, 0x4F]);
    assert_eq!(ldc(0x754), [0x27, 0x25, 0x44]);
    assert_eq!(ldc(-1), [0x60, 0x4F]);
    assert_eq!(ldc(-31), [0x61, 0x41]);
    let longest = [0x27, 0x2F, 0x2F, 0x2F, 0x2F, 0x2F, 0x6F, 0x40];
    assert_eq!(ldc(i32::MIN), longest);
}

#[test]
fn a_function_above_15_and_the_prefixes_are_refused() {
    for function in 0..=15 {
        let refused = SECOND.assemble(function, 5).is_none();
        assert_eq!(refused, [PFIX, NFIX].contains(&function), "{function}");
    }
    for function in [16, 17, 0x40, 1 << 28, u32::MAX] {
        assert_eq!(SECOND.assemble(function, 5), None);
    }
}

/// Every chain of one to three bytes, by brute force: the least length that makes each operand.
#[test]
fn chains_are_the_shortest() {
    let mut least: BTreeMap<i32, usize> = BTreeMap::new();
    let prefixes: Vec<u8> = (0x20..=0x2F).chain(0x60..=0x6F).collect();
    let mut begun: Vec<Vec<u8>> = vec![Vec::new()];
    for length in 1..=3 {
        for chain in &begun {
            for last in 0x40..=0x4F {
                let operand = loaded(&[&chain[..], &[last]].concat());
                least.entry(operand).or_insert(length);
            }
        }
        let longer = |chain: &Vec<u8>| {
            prefixes
                .iter()
                .map(|&p| [&chain[..], &[p]].concat())
                .collect::<Vec<_>>()
        };
        begun = begun.iter().flat_map(longer).collect();
    }
    assert!(least.len() > 8_000);
    for (&operand, &length) in &least {
        assert_eq!(ldc(operand).len(), length, "{operand}");
    }
    for operand in -70_000..=70_000 {
        let more = ldc(operand).len() > 3;
        assert_eq!(more, !least.contains_key(&operand), "{operand}");
    }
}

/// What the emulator has in A after the chain of an ldc.
fn loaded(chain: &[u8]) -> i32 {
    let (mut memory, mut journal) = ([0; 64], [0; 1024]);
    let mut emulator = Emulator::new();
    let mut machine = emulator
        .fresh(&mut memory, &journal, chain)
        .expect("it fits");
    for at in 1..=chain.len() {
        emulator
            .step(&mut machine, &mut memory, &mut journal)
            .expect("ldc is accepted");
        assert!(at < chain.len() || machine.regs[OREG] == 0);
    }
    machine.regs[A] as i32
}

/// The emulator loads what was assembled, in at most eight bytes, and the lister reads it back.
#[test]
fn any_operand_comes_back() {
    let mut random = Random::new(21);
    for _ in 0..20_000 {
        let operand = random.word() as i32 >> random.below(32);
        let chain = ldc(operand);
        assert!(chain.len() <= 8);
        assert_eq!(loaded(&chain), operand);
        assert_eq!(SECOND.list(&chain), format!("ldc {operand}\n"));
        assert_eq!(
            SECOND.read_text(format!("ldc {operand}").as_bytes()),
            Ok(chain)
        );
    }
}

/// No shorter chain: the operands of chains of one byte less, drawn at random, are shorter to write.
#[test]
fn no_random_chain_is_shorter() {
    let mut random = Random::new(22);
    for _ in 0..20_000 {
        let length = random.between(1, 8);
        let mut chain: Vec<u8> = (1..length)
            .map(|_| random.pick(&[0x20, 0x60]) | random.below(16) as u8)
            .collect();
        chain.push(0x40 | random.below(16) as u8);
        assert!(ldc(loaded(&chain)).len() <= chain.len());
    }
}

#[test]
fn the_listing() {
    for (code, text) in [
        (&[][..], ""),
        (&[0x21, 0x40], "ldc 16\n"),
        (&[0x60, 0x4F, 0x05], "ldc -1\nj 5\n"),
        (&[0xF5, 0x24, 0xF2], "add\nmint\n"),
        (&[0x23, 0xFE, 0x23, 0xFF], "saveh\nwcnt\n"),
        (&[0x21, 0xF1], "opr 17\n"),
        (&[0x60, 0xF5], "opr -11\n"),
        (&[0x20, 0xF5], "add\n"),
        // nine and ten bytes: bits fall off
        (
            &[0x2F, 0x28, 0x20, 0x20, 0x20, 0x20, 0x20, 0x20, 0x41],
            "ldc -2147483647\n",
        ),
        (
            &[0x2F, 0x2F, 0x20, 0x20, 0x20, 0x20, 0x20, 0x20, 0x20, 0x43],
            "ldc 3\n",
        ),
        (&[0x41, 0x2A, 0x6F], "ldc 1\n2A 6F\n"),
        (&[0x60], "60\n"),
    ] {
        assert_eq!(SECOND.list(code), text);
    }
    let code = [0x21, 0x40, 0xF5, 0x2A, 0x6B];
    let text = "80000048 21 40 ldc 16\n8000004A F5 add\n8000004B 2A 6B 2A 6B\n";
    assert_eq!(SECOND.list_addresses(&code), text);
}

/// Every operation by its name, there and back; any other code by its operand.
#[test]
fn operations_are_listed_by_name() {
    for code in 0..=0x2FF {
        let chain = SECOND.assemble(15, code).expect("opr is a function");
        let named = OPERATIONS
            .iter()
            .find(|operation| operation.code == code as u32);
        let text = match named {
            Some(operation) => format!("{}\n", operation.name),
            None => format!("opr {code}\n"),
        };
        assert_eq!(SECOND.list(&chain), text);
        assert_eq!(SECOND.read_text(text.as_bytes()), Ok(chain));
    }
}

#[test]
fn the_text() {
    let text = "-- load and add\n\nldc #10\n  ldc\t-257 -- two prefixes\nadd\nopr 5--the same\nldc #fFFFffff";
    let code = [0x21, 0x40, 0x21, 0x60, 0x4F, 0xF5, 0xF5, 0x60, 0x4F];
    assert_eq!(SECOND.read_text(text.as_bytes()), Ok(code.to_vec()));
    assert_eq!(SECOND.read_text(b""), Ok(vec![]));
    for (text, bad) in [
        ("pfix 1", 1),
        ("ldc 5\n\n-- six\nnfix 6\nfoo", 4),
        ("ldc 2147483647\nldc 2147483648", 2),
        ("ldc -2147483648\nldc -2147483649\n", 2),
        ("ldc #12345678\nldc #123456789", 2),
        ("ldc --5", 1),
        ("add 5", 1),
        ("ldc 1\nldc 2\n21 2F\n", 3),
    ] {
        assert_eq!(SECOND.read_text(text.as_bytes()), Err(bad), "{text}");
    }
}

/// Code of any bytes: its chains are its bytes, in order, each but the last with a function.
#[test]
fn code_is_cut_into_chains() {
    let mut random = Random::new(23);
    for _ in 0..2_000 {
        let length = random.below(60);
        let code: Vec<u8> = (0..length).map(|_| random.word() as u8).collect();
        let cut: Vec<_> = chains(&code).collect();
        let bytes: Vec<u8> = cut.iter().flat_map(|chain| chain.bytes.to_vec()).collect();
        assert_eq!(bytes, code);
        for (at, chain) in cut.iter().enumerate() {
            assert!(chain.function.is_some() || at + 1 == cut.len());
            let last = u32::from(chain.bytes[chain.bytes.len() - 1] >> 4);
            assert_eq!(chain.function.is_none(), [PFIX, NFIX].contains(&last));
        }
        assert_eq!(SECOND.list(&code).lines().count(), cut.len());
    }
    assert_eq!(FUNCTIONS[PFIX as usize].name, "pfix");
    assert_eq!(FUNCTIONS[NFIX as usize].name, "nfix");
}

/// The number of runs in which a variant differs from the reference.
fn differing(tool: &Tool, count: u64) -> u64 {
    let second = Tool::find("second").expect("it is inside");
    let assembler = hold_assembler(tool, 1, count);
    let lister = hold_lister(tool, 1, count, false);
    let addresses = hold_lister(tool, 1, count, true);
    let back = hold_both(tool, &second, 1, count / 10);
    let there = hold_both(&second, tool, 1, count / 10);
    let all = [assembler, lister, addresses, back, there];
    let findings = all.map(|findings| findings.expect("the reference runs"));
    findings.iter().map(|findings| findings.different).sum()
}

#[test]
fn every_slip_is_told() {
    let count = if cfg!(debug_assertions) { 200 } else { 5_000 };
    assert_eq!(differing(&Tool::find("second").unwrap(), count), 0);
    for slip in Slip::ALL {
        let tool = Tool::find(&format!("wrong:{}", slip.name())).expect("its name");
        assert!(differing(&tool, count) > 0, "{}", slip.name());
    }
}
