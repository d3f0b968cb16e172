//! Runs a program over pipes.

use std::io::{Read, Write};
use std::path::{Path, PathBuf};
use std::process::{Command, ExitStatus, Stdio};
use std::sync::{mpsc, OnceLock};
use std::thread;
use std::time::Duration;

/// A program that answers within this time or is ended: no emulator may hang.
const PATIENCE: Duration = Duration::from_secs(180);

/// A program and how it is started.
#[derive(Clone, Debug)]
pub struct Program {
    path: PathBuf,
    rattle: bool,
}

pub struct Outcome {
    pub output: Vec<u8>,
    /// Standard error.
    pub complaint: String,
    pub status: ExitStatus,
}

impl Program {
    /// A path, or a bare name: then a program beside this one, else one that Rattle has built in
    /// the project, `crates/NAME/out/NAME`. A program in such a folder `out` is taken for one that
    /// Rattle has built, and `rattle:PATH` forces that.
    pub fn find(text: &str) -> Result<Program, String> {
        if let Some(path) = text.strip_prefix("rattle:") {
            return Program::at(Path::new(path), true);
        }
        if text.contains('/') {
            let path = Path::new(text);
            return Program::at(path, in_rattle_folder(path));
        }
        let own = std::env::current_exe().map_err(|error| error.to_string())?;
        let beside = own.with_file_name(text);
        if beside.is_file() {
            return Program::at(&beside, false);
        }
        let inner = format!("crates/{text}/out/{text}");
        let mut folders = own.ancestors().map(|folder| folder.join(&inner));
        let built = folders.find(|path| path.is_file());
        let built = built.ok_or(format!("no program {text} beside compare, and no {inner}"))?;
        Program::at(&built, true)
    }

    fn at(path: &Path, rattle: bool) -> Result<Program, String> {
        if !path.is_file() {
            return Err(format!("no program at {}", path.display()));
        }
        let path = path.to_path_buf();
        Ok(Program { path, rattle })
    }

    /// Whether the program says by its status that it failed; those that Rattle builds do not.
    pub fn has_status(&self) -> bool {
        !self.rattle
    }

    /// How the program is started.
    pub fn command(&self) -> Result<Command, String> {
        if self.rattle {
            rattle_command(&self.path)
        } else {
            Ok(Command::new(&self.path))
        }
    }

    /// Sends the input, closes, and reads. Writing and reading go on at the same time, since a
    /// program may answer before it has read everything.
    pub fn run(&self, input: Vec<u8>) -> Result<Outcome, String> {
        self.run_with(&[], input)
    }

    /// The same with arguments for the program.
    pub fn run_with(&self, arguments: &[&str], input: Vec<u8>) -> Result<Outcome, String> {
        let mut command = self.command()?;
        command.args(arguments);
        command.stdin(Stdio::piped());
        command.stdout(Stdio::piped());
        command.stderr(Stdio::piped());
        let name = self.path.display();
        let mut child = command
            .spawn()
            .map_err(|error| format!("{name}: {error}"))?;
        let (mut to, from) = (child.stdin.take(), child.stdout.take());
        let errors = child.stderr.take();
        let writer = thread::spawn(move || {
            // A program that stops early closes its input: its output tells the story.
            let _ = to.as_mut().map(|to| to.write_all(&input));
        });
        let complaint = thread::spawn(move || read_all(errors));
        let (send, received) = mpsc::channel();
        thread::spawn(move || send.send(read_all(from)));
        let output = received.recv_timeout(PATIENCE);
        if output.is_err() {
            let _ = child.kill();
        }
        let status = child.wait().map_err(|error| format!("{name}: {error}"))?;
        let _ = writer.join();
        let complaint = complaint.join().unwrap_or_default();
        let output = output.map_err(|_| format!("{name}: no end within {PATIENCE:?}"))?;
        Ok(Outcome {
            output,
            complaint: String::from_utf8_lossy(&complaint).into(),
            status,
        })
    }
}

fn read_all(from: Option<impl Read>) -> Vec<u8> {
    let mut bytes = Vec::new();
    if let Some(mut from) = from {
        let _ = from.read_to_end(&mut bytes);
    }
    bytes
}

/// Whether a path ends as `crates/NAME/out/PROGRAM`.
fn in_rattle_folder(path: &Path) -> bool {
    let mut above = path.ancestors().skip(1);
    let out = above.next().and_then(Path::file_name);
    let crates = above.nth(1).and_then(Path::file_name);
    out.is_some_and(|name| name == "out") && crates.is_some_and(|name| name == "crates")
}

/// The folder of the kit, in which the page stands that `rt doc` names.
fn kit() -> Result<PathBuf, String> {
    let answer = Command::new("rt").arg("doc").output();
    let answer = answer.map_err(|error| format!("rt doc: {error}"))?;
    let page = String::from_utf8_lossy(&answer.stdout).trim().to_string();
    Ok(Path::new(&page)
        .parent()
        .ok_or("rt doc names no page")?
        .into())
}

/// The emulator for x86-64, where this machine is another and the emulator is on the path.
fn emulator() -> Option<PathBuf> {
    if std::env::consts::ARCH == "x86_64" {
        return None;
    }
    let path = std::env::var_os("PATH")?;
    let mut places = std::env::split_paths(&path).map(|folder| folder.join("qemu-x86_64"));
    places.find(|place| place.is_file())
}

/// A program that Rattle has built is one for x86-64. On another machine it runs under an emulator
/// that is on the path, with the kit's loader and C library, or else as the machine itself runs it.
fn rattle_command(program: &Path) -> Result<Command, String> {
    static KIT: OnceLock<Result<PathBuf, String>> = OnceLock::new();
    let Some(emulator) = emulator() else {
        return Ok(Command::new(program));
    };
    let library = KIT.get_or_init(kit).clone()?.join("toolchain/lib");
    let mut command = Command::new(emulator);
    for (name, _) in std::env::vars_os() {
        if name.to_string_lossy().starts_with("QEMU_") {
            command.env_remove(name);
        }
    }
    command.arg(library.join("ld-linux-x86-64.so.2"));
    command.arg("--library-path").arg(library).arg(program);
    Ok(command)
}
