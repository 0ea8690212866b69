//! A scratch directory in memory: files of a job, written only where they change, and a program run among them.

use std::collections::HashMap;
use std::process::{self, Command, Stdio};
use std::time::{Duration, Instant};
use std::{env, fs, fs::File, io, path::Path, path::PathBuf, thread};

/// What a program wrote to standard output and to standard error, and whether it ended with exit code 0.
#[derive(PartialEq)]
pub struct Run {
    pub print: Vec<u8>,
    pub errors: Vec<u8>,
    pub succeeded: bool,
}

impl Run {
    /// That it wrote one line to standard error, which begins so and goes on in words.
    pub fn tells(&self, beginning: &str) -> bool {
        let text = String::from_utf8_lossy(&self.errors);
        let words = text.strip_prefix(beginning).and_then(|words| words.strip_suffix('\n'));
        words.is_some_and(|words| !words.is_empty() && !words.contains('\n'))
    }
}

/// How long to wait before looking again whether a program has ended.
const PAUSE: Duration = Duration::from_micros(50);

pub struct Scratch {
    /// Holds the directory of the job and those kept.
    root: PathBuf,
    /// The files as they are, by name.
    files: HashMap<&'static str, Vec<u8>>,
    kept: usize,
}

impl Scratch {
    pub fn new() -> io::Result<Scratch> {
        let memory = Path::new("/dev/shm");
        let parent = if memory.is_dir() { memory.to_path_buf() } else { env::temp_dir() };
        let root = parent.join(format!("judge-{}", process::id()));
        fs::create_dir_all(root.join("job"))?;
        Ok(Scratch { root, files: HashMap::new(), kept: 0 })
    }

    fn job(&self) -> PathBuf {
        self.root.join("job")
    }

    /// Writes a file, or removes it.
    pub fn put(&mut self, name: &'static str, bytes: Option<&[u8]>) -> io::Result<()> {
        if self.files.get(name).map(Vec::as_slice) == bytes {
            return Ok(());
        }
        let path = self.job().join(name);
        match bytes {
            Some(bytes) => {
                self.files.insert(name, bytes.to_vec());
                fs::write(path, bytes)
            }
            None => {
                self.files.remove(name);
                fs::remove_file(path)
            }
        }
    }

    pub fn run(&self, program: &Path, arguments: &[&str]) -> io::Result<Run> {
        let output = Command::new(program).args(arguments).current_dir(self.job()).stdin(Stdio::null()).output()?;
        Ok(Run { print: output.stdout, errors: output.stderr, succeeded: output.status.code() == Some(0) })
    }

    /// A run that is ended after so long; standard error then says so.
    pub fn run_within(&self, program: &Path, arguments: &[&str], limit: Duration) -> io::Result<Run> {
        let [print, errors] = ["standard-output", "standard-error"].map(|name| self.job().join(name));
        let mut command = Command::new(program);
        command.args(arguments).current_dir(self.job()).stdin(Stdio::null());
        let mut child = command.stdout(File::create(&print)?).stderr(File::create(&errors)?).spawn()?;
        let begun = Instant::now();
        let ended = loop {
            match child.try_wait()? {
                None if begun.elapsed() < limit => thread::sleep(PAUSE),
                ended => break ended,
            }
        };
        let mut run = Run { print: fs::read(print)?, errors: fs::read(errors)?, succeeded: false };
        match ended {
            Some(status) => run.succeeded = status.code() == Some(0),
            None => {
                child.kill()?;
                child.wait()?;
                run.errors.extend(format!("ended after {} s\n", limit.as_secs()).bytes());
            }
        }
        Ok(run)
    }

    /// Keeps the files in a directory of their own, with further ones beside them.
    pub fn keep(&mut self, further: &[(&str, &[u8])]) -> io::Result<PathBuf> {
        self.kept += 1;
        let directory = self.root.join(format!("difference-{}", self.kept));
        fs::create_dir_all(&directory)?;
        let files = self.files.iter().map(|(&name, bytes)| (name, bytes.as_slice()));
        for (name, bytes) in files.chain(further.iter().copied()) {
            fs::write(directory.join(name), bytes)?;
        }
        Ok(directory)
    }

    /// Removes what need not be kept.
    pub fn clear(self) -> io::Result<()> {
        fs::remove_dir_all(if self.kept == 0 { self.root } else { self.job() })
    }
}
