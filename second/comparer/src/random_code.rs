//! Random programs: short pieces of code that mean something, with stray bytes between them.
//!
//! Several processes run the same pieces: each is started at the beginning of an earlier piece, in a
//! workspace of its own. Soft channels stand in the last words of memory.

use crate::instructions::{put_function, put_operation};
use crate::random::Random;

/// Where code begins, in words.
const MEM_START: u32 = 18;
const CHANNELS: u32 = 3;
/// Words between two workspaces.
const APART: u32 = 11;

/// Code under construction.
pub struct Code<'a> {
    random: &'a mut Random,
    bytes: Vec<u8>,
    /// Where pieces begin, in bytes.
    begins: Vec<usize>,
    /// Memory words, and the first workspace behind the code.
    size: u32,
    behind: u32,
}

/// A program of about `length` bytes for a memory of `size` words.
pub fn program(random: &mut Random, size: u32, length: usize) -> Vec<u8> {
    let mut code = Code {
        random,
        bytes: Vec::new(),
        begins: Vec::new(),
        size,
        behind: MEM_START + (length as u32 + 60) / 4,
    };
    code.beginning();
    code.begins.push(code.bytes.len());
    while code.bytes.len() < length {
        code.piece();
        code.begins.push(code.bytes.len());
    }
    code.back("j", 2);
    code.bytes
}

impl Code<'_> {
    /// Channels are empty, the first process has room below it, clocks run for the most part.
    fn beginning(&mut self) {
        let above = self.random.between(5, 9) as i32;
        self.function("ajw", above);
        for channel in 0..CHANNELS {
            self.operation("mint");
            self.operation("mint");
            self.function("stnl", (self.size - 1 - channel) as i32);
        }
        if self.random.percent(75) {
            let start = self.random.pick(&[0, -3, i32::MAX - 2]);
            self.function("ldc", start);
            self.operation("sttimer");
        }
        if self.random.percent(40) {
            self.operation("sethalterr");
        }
    }

    fn function(&mut self, name: &str, operand: i32) {
        put_function(&mut self.bytes, name, operand);
    }

    fn operation(&mut self, name: &str) {
        put_operation(&mut self.bytes, name);
    }

    /// A function whose operand leads from `ahead` bytes behind here back to an earlier piece. Such
    /// an operand takes one prefix.
    fn back(&mut self, name: &str, ahead: i32) {
        let near = self.begins.len().saturating_sub(12);
        let begins = &self.begins[near..];
        let to = self.random.pick(begins) as i32;
        let here = self.bytes.len() as i32 + ahead;
        self.function(name, (to - here).max(-256));
    }

    fn small(&mut self) -> i32 {
        self.random.below(5) as i32
    }

    fn constant(&mut self) {
        let any = self.random.word() as i32;
        let near = self.small() - 2;
        let value = self
            .random
            .pick(&[near, near, near, any, i32::MIN, i32::MAX]);
        self.function("ldc", value);
    }

    /// The address of a word, by its index.
    fn address(&mut self, index: u32) {
        self.operation("mint");
        self.function("ldnlp", index as i32);
    }

    fn channel(&mut self) -> u32 {
        if self.random.percent(45) {
            self.random.below(9)
        } else {
            self.size - 1 - self.random.below(CHANNELS)
        }
    }

    fn workspace(&mut self) -> u32 {
        let room = self.size.saturating_sub(self.behind + CHANNELS + 3) / APART;
        self.behind + 6 + APART * self.random.below(room.max(1))
    }

    fn piece(&mut self) {
        match self.random.below(26) {
            0..=3 => self.arithmetic(),
            4..=6 => self.locals(),
            7..=11 => self.message(),
            12 | 13 => self.start_process(),
            14 | 15 => self.run_process(),
            16 => self.timer(),
            17 | 18 => self.alternative(),
            19 => self.timer_alternative(),
            20 => self.jump(),
            21 => self.block(),
            22 | 23 => self.lone_operation(),
            24 => self.special(),
            _ => self.stray(),
        }
    }

    fn arithmetic(&mut self) {
        const TWO: [&str; 31] = [
            "add", "sub", "mul", "div", "rem", "gt", "diff", "sum", "prod", "and", "or", "xor",
            "shl", "shr", "ladd", "lsub", "lsum", "ldiff", "lmul", "ldiv", "lshl", "lshr", "norm",
            "csub0", "ccnt1", "bsub", "wsub", "xword", "cword", "csngl", "rev",
        ];
        self.constant();
        self.constant();
        let name = self.random.pick(&TWO);
        if self.random.percent(70) || name.ends_with("shl") || name.ends_with("shr") {
            let shift = self.small();
            self.function("ldc", shift);
        }
        self.operation(name);
        let place = self.small();
        self.function("stl", place);
    }

    fn locals(&mut self) {
        let name = self
            .random
            .pick(&["ldl", "stl", "ldlp", "adc", "eqc", "ldc"]);
        let operand = self.small();
        self.function(name, operand);
        if name == "ldlp" {
            let next = self.random.pick(&["ldnl", "stnl", "ldnlp"]);
            self.function(next, operand % 4);
        }
    }

    fn message(&mut self) {
        let buffer = self.small();
        self.function("ldlp", buffer);
        let channel = self.channel();
        self.address(channel);
        let count = self.random.below(7) as i32;
        self.function("ldc", count);
        let name = self.random.pick(&["in", "in", "out", "outword", "outbyte"]);
        self.operation(name);
    }

    fn start_process(&mut self) {
        let space = self.workspace();
        // ldc with its prefix 2 bytes, mint 2, ldnlp as many as its operand asks, startp 1
        let length = if space > 255 { 8 } else { 7 };
        self.back("ldc", length);
        self.address(space);
        self.operation("startp");
    }

    /// Iptr.s is stored first; an even descriptor is high.
    fn run_process(&mut self) {
        let space = self.workspace();
        self.back("ldc", 4);
        self.operation("ldpi");
        self.address(space);
        self.function("stnl", -1);
        self.address(space);
        if self.random.percent(20) {
            self.function("adc", 1);
        }
        self.operation("runp");
    }

    fn timer(&mut self) {
        let later = self.small() - 2;
        self.operation("ldtimer");
        self.function("adc", later);
        self.operation("tin");
    }

    fn alternative(&mut self) {
        let channel = self.channel();
        let skip = self.random.percent(20);
        self.operation("alt");
        self.address(channel);
        self.function("ldc", 1);
        self.operation("enbc");
        if skip {
            self.function("ldc", 1);
            self.operation("enbs");
        }
        self.operation("altwt");
        self.address(channel);
        self.function("ldc", 1);
        self.function("ldc", 0);
        self.operation("disc");
        if skip {
            self.function("ldc", 1);
            self.function("ldc", 0);
            self.operation("diss");
        }
        self.operation("altend");
    }

    fn timer_alternative(&mut self) {
        let channel = self.channel();
        self.operation("talt");
        for _ in 0..self.random.between(1, 2) {
            let later = self.small() - 1;
            self.operation("ldtimer");
            self.function("adc", later);
            self.function("ldc", 1);
            self.operation("enbt");
        }
        self.address(channel);
        self.function("ldc", 1);
        self.operation("enbc");
        self.operation("taltwt");
        self.address(channel);
        self.function("ldc", 1);
        self.function("ldc", 0);
        self.operation("disc");
        self.operation("ldtimer");
        self.function("ldc", 1);
        self.function("ldc", 0);
        self.operation("dist");
        self.operation("altend");
    }

    fn jump(&mut self) {
        match self.random.below(3) {
            0 => self.back("j", 2),
            1 => {
                let truth = self.small() % 2;
                self.function("ldc", truth);
                self.function("cj", 1);
                self.function("ldc", 1);
            }
            _ => {
                let place = self.small();
                self.function("ldc", 2);
                self.function("stl", place + 1);
                self.function("ldlp", place);
                self.function("ldc", 3);
                self.operation("lend");
            }
        }
    }

    fn block(&mut self) {
        let (from, to) = (self.small(), self.small());
        let count = self.random.below(20) as i32;
        let crooked = self.random.below(4) as i32;
        self.function("ldlp", from);
        self.function("adc", crooked);
        self.function("ldlp", to);
        self.function("ldc", count);
        self.operation("move");
    }

    fn lone_operation(&mut self) {
        const LONE: [&str; 20] = [
            "rev",
            "seterr",
            "testerr",
            "testerr",
            "testerr",
            "clrhalterr",
            "sethalterr",
            "testhalterr",
            "stoperr",
            "ldpri",
            "ldtimer",
            "testpranal",
            "wcnt",
            "bcnt",
            "xdbl",
            "not",
            "mint",
            "savel",
            "saveh",
            "lb",
        ];
        let name = self.random.pick(&LONE);
        if ["savel", "saveh", "lb"].contains(&name) {
            let place = self.small();
            self.function("ldlp", place);
        }
        self.operation(name);
    }

    /// Calls, process ends, resets and workspace changes.
    fn special(&mut self) {
        match self.random.below(8) {
            0 => {
                self.function("call", 0);
                self.operation("ret");
            }
            1 => self.operation("stopp"),
            2 => {
                let place = self.small();
                let count = self.random.between(1, 2) as i32;
                self.function("ldc", count);
                self.function("stl", place + 1);
                self.back("ldc", 4);
                self.operation("ldpi");
                self.function("stl", place);
                self.function("ldlp", place);
                self.operation("endp");
            }
            3 | 4 => {
                let channel = self.channel();
                self.address(channel);
                self.operation("resetch");
            }
            5 => {
                let name = self.random.pick(&["sthf", "stlf"]);
                self.operation("mint");
                self.operation(name);
            }
            6 => {
                self.function("ldlp", 1);
                self.operation("gajw");
                self.operation("gajw");
            }
            _ => {
                self.function("ldlp", 2);
                self.function("ldc", 77);
                self.operation("rev");
                self.operation("sb");
            }
        }
    }

    fn stray(&mut self) {
        if self.random.percent(30) {
            let byte = self.random.word() as u8;
            self.bytes.push(byte);
        }
    }
}
