//! Programs that assemble and list, held against the reference. Many lines or byte strings go out in
//! one run, since a run has at most 1 MiB of input.

use super::chain::chains;
use super::inputs::{any_bytes, any_line, bad_text, fixed_lines, program, unfinished, Line};
use super::listing::hex;
use super::tool::{assembled, Tool};
use super::Reference;
use crate::random::Random;

/// Bytes of text or code of one run.
const TEXT: usize = 1_000_000;
const CODE: usize = 300_000;
/// Prefixes without an end: so many that a lister cannot keep their text in a small buffer.
const TAIL: usize = 200_000;
/// Every operand up to this one is assembled, and down to its negative.
const NEAR: u64 = 70_000;
/// Differences that are told in words.
const SHOWN: usize = 3;

/// How many lines, strings or programs were compared, and the runs that differ.
#[derive(Debug, Default)]
pub struct Findings {
    pub compared: u64,
    pub runs: u64,
    pub different: u64,
    pub shown: Vec<String>,
}

impl Findings {
    /// Counts a run; `difference` is what it shows in words.
    fn add(&mut self, compared: usize, difference: Option<String>) {
        self.compared += compared as u64;
        self.runs += 1;
        self.different += u64::from(difference.is_some());
        if self.shown.len() < SHOWN {
            self.shown.extend(difference);
        }
    }
}

/// The fixed lines, `count` lines more, and texts with bad lines. A small count also asks for fewer
/// fixed lines.
pub fn hold_assembler(tool: &Tool, seed: u64, count: u64) -> Result<Findings, String> {
    let mut random = Random::new(seed);
    let mut findings = Findings::default();
    let more = (0..count).map(|_| any_line(&mut random));
    let mut lines = Vec::new();
    let mut length = 0;
    for line in fixed_lines(count.min(NEAR) as i32).chain(more) {
        length += line.text.len() + 1;
        lines.push(line);
        if length + 200 > TEXT {
            findings.add(lines.len(), lines_differ(tool, &lines)?);
            lines.clear();
            length = 0;
        }
    }
    findings.add(lines.len(), lines_differ(tool, &lines)?);
    for which in 0..(count / 500).clamp(80, 400) {
        let (text, bad) = bad_text(&mut random, which as usize);
        findings.add(1, bad_differs(tool, &text, bad)?);
    }
    Ok(findings)
}

fn lines_differ(tool: &Tool, lines: &[Line]) -> Result<Option<String>, String> {
    let text: Vec<&str> = lines.iter().map(|line| line.text.as_str()).collect();
    let theirs = tool.assemble((text.join("\n") + "\n").as_bytes())?;
    if let Some(bad) = theirs.bad {
        return Ok(Some(format!("line {bad} is called bad, and none is")));
    }
    let mut rest = &theirs.bytes[..];
    for line in lines {
        let Some(more) = rest.strip_prefix(&line.code[..]) else {
            let theirs = chains(rest)
                .next()
                .map_or(String::new(), |chain| hex(chain.bytes));
            return Ok(Some(format!(
                "{}: {} against {theirs}",
                line.text,
                hex(&line.code)
            )));
        };
        rest = more;
    }
    Ok((!rest.is_empty()).then(|| format!("{} bytes too many", rest.len())))
}

fn bad_differs(tool: &Tool, text: &str, bad: usize) -> Result<Option<String>, String> {
    let ours = assembled(Reference::RIGHT, text.as_bytes());
    if (ours.bytes.len(), ours.bad) != (0, Some(bad)) {
        return Err(format!(
            "the reference reads line {bad} of this otherwise: {text}"
        ));
    }
    let theirs = tool.assemble(text.as_bytes())?;
    let told = |bad: Option<usize>| bad.map_or("no line".into(), |bad| format!("line {bad}"));
    Ok((ours != theirs).then(|| {
        let line = text.lines().nth(bad - 1).unwrap_or_default();
        let (bytes, theirs) = (theirs.bytes.len(), told(theirs.bad));
        format!("line {bad} is bad ({line}): {theirs} is told, and {bytes} bytes are written")
    }))
}

/// `count` byte strings, most of them joined, and some alone with an unfinished chain at their end.
pub fn hold_lister(
    tool: &Tool,
    seed: u64,
    count: u64,
    addresses: bool,
) -> Result<Findings, String> {
    let mut random = Random::new(seed);
    let mut findings = Findings::default();
    findings.add(1, listing_differs(tool, &[], addresses)?);
    let tail = [vec![0x41], vec![0x2F; TAIL]].concat();
    findings.add(1, listing_differs(tool, &tail, addresses)?);
    let mut code = Vec::new();
    let mut strings = 0;
    for number in 0..count {
        let string = any_bytes(&mut random);
        if number % 50 == 0 {
            let alone = [string, unfinished(&mut random)].concat();
            findings.add(1, listing_differs(tool, &alone, addresses)?);
            continue;
        }
        code.extend(string);
        strings += 1;
        if code.len() > CODE {
            findings.add(strings, listing_differs(tool, &code, addresses)?);
            code.clear();
            strings = 0;
        }
    }
    findings.add(strings, listing_differs(tool, &code, addresses)?);
    Ok(findings)
}

/// With addresses, only the width of blanks may differ.
fn listing_differs(tool: &Tool, code: &[u8], addresses: bool) -> Result<Option<String>, String> {
    let reference = Tool::Inside(Reference::RIGHT);
    let blanks = |text: String| if addresses { one_blank(&text) } else { text };
    let ours = blanks(reference.list(code, addresses)?);
    let theirs = blanks(tool.list(code, addresses)?);
    if ours == theirs {
        return Ok(None);
    }
    let (mut left, mut right) = (ours.split('\n'), theirs.split('\n'));
    for (number, chain) in chains(code).enumerate() {
        let (ours, theirs) = (left.next().unwrap_or(""), right.next().unwrap_or(""));
        if ours != theirs {
            let (number, bytes) = (number + 1, hex(chain.bytes));
            return Ok(Some(format!(
                "line {number}, {bytes}: '{ours}' against '{theirs}'"
            )));
        }
    }
    Ok(Some("the listing goes on after the last chain".into()))
}

fn one_blank(text: &str) -> String {
    let line = |line: &str| line.split_whitespace().collect::<Vec<_>>().join(" ");
    text.split('\n').map(line).collect::<Vec<_>>().join("\n")
}

/// `count` programs of shortest chains, listed and assembled again: the same code. In one of eight
/// code ends in an unfinished chain, and the assembler calls its line bad.
pub fn hold_both(
    lister: &Tool,
    assembler: &Tool,
    seed: u64,
    count: u64,
) -> Result<Findings, String> {
    let mut random = Random::new(seed);
    let mut findings = Findings::default();
    for number in 0..count {
        let length = random.below(300);
        let mut code = program(&mut random, length);
        let cut = number % 8 == 0;
        if cut {
            code.extend(unfinished(&mut random));
        }
        let text = lister.list(&code, false)?;
        let back = assembler.assemble(text.as_bytes())?;
        let bad = cut.then(|| chains(&code).count());
        let bytes = if cut { Vec::new() } else { code };
        let differs = (&back.bytes, back.bad) != (&bytes, bad);
        findings.add(
            1,
            differs.then(|| both_differ(number, bad, &bytes, &back.bytes, back.bad)),
        );
    }
    Ok(findings)
}

fn both_differ(
    number: u64,
    bad: Option<usize>,
    code: &[u8],
    back: &[u8],
    told: Option<usize>,
) -> String {
    let same = code
        .iter()
        .zip(back)
        .take_while(|(ours, theirs)| ours == theirs);
    format!(
        "program {number}: bad line {bad:?} against {told:?}, {} bytes against {}, the first {} the same",
        code.len(),
        back.len(),
        same.count()
    )
}
