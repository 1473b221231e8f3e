//! Texts written with blanks for tabs, and the program run on them as a whole.

use std::path::PathBuf;
use std::process::{Command, Output};
use std::sync::atomic::{AtomicUsize, Ordering};

pub fn tabs(text: &str) -> String {
    text.trim_start().replace(' ', "\t")
}

/// Node 2. Set 0 to point 1 with links 0 and 1, set 1 to point 3 with link 4; two ways to 9.
pub const TWO_WAYS: &str = "
node 2 2
set 0 1
set 1 3
link 0 0 0
link 1 0 1
link 4 1 0
route 1 0 0
route 3 1 0
route 9 0 0
route 9 1 1
";

/// What the program wrote, and its exit status.
pub struct Ran {
    pub out: String,
    pub err: String,
    pub status: i32,
}

/// A file that goes when it is no longer wanted.
pub struct File(PathBuf);

impl File {
    pub fn name(&self) -> &str {
        self.0.to_str().unwrap()
    }
}

impl Drop for File {
    fn drop(&mut self) {
        let _ = std::fs::remove_file(&self.0);
    }
}

/// A file of its own for each text, since tests run side by side.
pub fn file(text: &str) -> File {
    static FILES: AtomicUsize = AtomicUsize::new(0);
    let number = FILES.fetch_add(1, Ordering::Relaxed);
    let name = format!("{}-{number}", std::process::id());
    let path = PathBuf::from(env!("CARGO_TARGET_TMPDIR")).join(name);
    std::fs::write(&path, text).unwrap();
    File(path)
}

pub fn second(words: &[&str]) -> Ran {
    let Output { stdout, stderr, status } = Command::new(env!("CARGO_BIN_EXE_second")).args(words).output().unwrap();
    let text = |octets| String::from_utf8(octets).unwrap();
    Ran { out: text(stdout), err: text(stderr), status: status.code().unwrap() }
}

/// A command with options before its two files.
pub fn run(command: &str, options: &[&str], configuration: &str, record: &str) -> Ran {
    let files = [file(&tabs(configuration)), file(&tabs(record))];
    let mut words = vec![command];
    words.extend(options);
    words.extend(files.iter().map(File::name));
    second(&words)
}
