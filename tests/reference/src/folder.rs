//! A folder of its own, with files and pipes, in which a program is run.

use std::fs::{self, File};
use std::io::{self, Read, Write};
use std::os::unix::fs::PermissionsExt;
use std::os::unix::process::CommandExt;
use std::path::{Path, PathBuf};
use std::process::{Child, Command, ExitStatus, Stdio};
use std::sync::mpsc;
use std::thread::{self, JoinHandle};
use std::time::Duration;

/// A program that runs longer is ended.
const LONGEST: Duration = Duration::from_secs(10);
/// Between two pieces of a pipe.
const PAUSE: Duration = Duration::from_millis(30);
/// The user that owns nothing.
const NOBODY: u32 = 65_534;

/// Removed at the end, with all that is in it.
pub struct Folder(PathBuf);

impl Folder {
    pub fn new() -> io::Result<Folder> {
        let path = std::env::temp_dir().join(format!("reference-tests-{}", std::process::id()));
        fs::create_dir_all(&path)?;
        fs::set_permissions(&path, fs::Permissions::from_mode(0o755))?;
        Ok(Folder(path))
    }

    pub fn path(&self, name: &str) -> PathBuf {
        self.0.join(name)
    }

    /// Removes whatever has this name.
    pub fn clear(&self, name: &str) {
        let path = self.path(name);
        if path.is_dir() {
            let _ = fs::remove_dir_all(&path);
        } else {
            let _ = fs::remove_file(&path);
        }
    }

    pub fn write(&self, name: &str, bytes: &[u8]) {
        self.clear(name);
        fs::write(self.path(name), bytes).expect("the folder can be written");
    }

    /// A folder with this name.
    pub fn folder(&self, name: &str) {
        self.clear(name);
        fs::create_dir(self.path(name)).expect("a folder can be made");
    }

    /// A link with this name to something else.
    pub fn link(&self, name: &str, target: &str) {
        self.clear(name);
        std::os::unix::fs::symlink(target, self.path(name)).expect("a link can be made");
    }

    /// A pipe with this name, into which the pieces are written with a pause between them.
    pub fn pipe(&self, name: &str, pieces: Vec<Vec<u8>>) -> Pipe {
        self.clear(name);
        let path = self.path(name);
        let made = Command::new("mkfifo").arg(&path).status();
        assert!(made.is_ok_and(|status| status.success()), "no pipe is made");
        let target = path.clone();
        let writer = thread::spawn(move || {
            let _ = write_pieces(&target, &pieces);
        });
        Pipe { path, writer }
    }

    /// Runs a program in this folder, and ends it if it takes too long.
    pub fn run(&self, program: &Path, user: User, output: Output) -> io::Result<Ended> {
        let mut command = Command::new(program);
        command.current_dir(&self.0).stdin(Stdio::null());
        if let User::Nobody = user {
            command.uid(NOBODY).gid(NOBODY);
        }
        command.stdout(match output {
            Output::Kept => Stdio::piped(),
            Output::Full => File::options().write(true).open("/dev/full")?.into(),
        });
        wait(command.spawn()?)
    }
}

impl Drop for Folder {
    fn drop(&mut self) {
        let _ = fs::remove_dir_all(&self.0);
    }
}

fn write_pieces(path: &Path, pieces: &[Vec<u8>]) -> io::Result<()> {
    let mut pipe = File::options().write(true).open(path)?;
    for (at, piece) in pieces.iter().enumerate() {
        if at > 0 {
            thread::sleep(PAUSE);
        }
        pipe.write_all(piece)?;
    }
    Ok(())
}

/// A pipe and the thread that writes into it.
pub struct Pipe {
    path: PathBuf,
    writer: JoinHandle<()>,
}

impl Pipe {
    /// Lets the writer go, also where nobody has read.
    pub fn close(self) {
        while !self.writer.is_finished() {
            let _ = File::options().read(true).write(true).open(&self.path);
            thread::sleep(Duration::from_millis(1));
        }
    }
}

#[derive(Clone, Copy)]
pub enum User {
    Same,
    Nobody,
}

#[derive(Clone, Copy)]
pub enum Output {
    Kept,
    /// Every write fails.
    Full,
}

/// What a program printed and how it ended.
pub struct Ended {
    pub printed: String,
    pub status: ExitStatus,
    pub in_time: bool,
}

fn wait(mut child: Child) -> io::Result<Ended> {
    let (sender, receiver) = mpsc::channel();
    let stdout = child.stdout.take();
    thread::spawn(move || {
        let mut bytes = Vec::new();
        if let Some(mut stdout) = stdout {
            let _ = stdout.read_to_end(&mut bytes);
        }
        let _ = sender.send(bytes);
    });
    let printed = receiver.recv_timeout(LONGEST);
    if printed.is_err() {
        child.kill()?;
    }
    Ok(Ended {
        in_time: printed.is_ok(),
        printed: String::from_utf8_lossy(&printed.unwrap_or_default()).into_owned(),
        status: child.wait()?,
    })
}
