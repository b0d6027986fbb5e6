//! The proved programs, run on a file.

use std::fs::{self, File};
use std::path::PathBuf;
use std::process::{Command, Stdio};

pub struct Programs {
    /// The folder of the programs.
    pub bin: PathBuf,
    /// A folder for inputs.
    pub work: PathBuf,
}

impl Programs {
    fn put(&self, name: &str, file: &[u8]) -> PathBuf {
        let path = self.work.join(name);
        fs::write(&path, file).expect("cannot write the input");
        path
    }

    /// What a program that reads standard input prints.
    pub fn run(&self, program: &str, file: &[u8]) -> String {
        let path = self.put("input", file);
        let out = Command::new(self.bin.join(program))
            .stdin(File::open(path).expect("cannot open the input"))
            .stderr(Stdio::inherit())
            .output()
            .expect("cannot run the program");
        let mut text = String::from_utf8_lossy(&out.stdout).into_owned();
        if !out.status.success() {
            text += &format!("{}\n", out.status);
        }
        text
    }

    /// The joined file, or what was printed to standard error.
    pub fn join(&self, first: &[u8], second: &[u8]) -> Result<Vec<u8>, String> {
        let out = Command::new(self.bin.join("join_files"))
            .arg(self.put("first", first))
            .arg(self.put("second", second))
            .output()
            .expect("cannot run join_files");
        if out.stderr.is_empty() && out.status.success() {
            Ok(out.stdout)
        } else {
            let mut said = String::from_utf8_lossy(&out.stderr).into_owned();
            if !out.stdout.is_empty() {
                said += "and wrote a file\n";
            }
            Err(said)
        }
    }
}
