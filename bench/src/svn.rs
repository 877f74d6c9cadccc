//! A repository of Subversion with the same commits, made from a dump, and its commands, each a process of its own.

use std::io::Write;
use std::path::{Path, PathBuf};
use std::process::{Command, Stdio};

pub struct Repository {
    repository: PathBuf,
    work: PathBuf,
    url: String,
}

/// The standard output; the command must end well.
fn output(c: &mut Command) -> Vec<u8> {
    let o = c.output().expect("it starts");
    assert!(o.status.success(), "{}", String::from_utf8_lossy(&o.stderr));
    o.stdout
}

fn there(name: &str) -> bool {
    Command::new(name).args(["--version", "-q"]).stdout(Stdio::null()).stderr(Stdio::null()).status().is_ok_and(|s| s.success())
}

/// The commits as a dump of version 2: file `s<sheet>` for each sheet.
fn dump(rows: &[(usize, u8, Vec<u8>)]) -> Vec<u8> {
    let mut out = b"SVN-fs-dump-format-version: 2\n\n".to_vec();
    let props = "K 7\nsvn:log\nV 1\nx\nK 8\nsvn:date\nV 27\n2020-01-01T00:00:00.000000Z\nPROPS-END\n";
    let mut last = 0;
    for (r, sheet, bytes) in rows {
        if *r != last {
            write!(out, "Revision-number: {r}\nProp-content-length: {0}\nContent-length: {0}\n\n{props}\n", props.len()).expect("memory");
        }
        last = *r;
        let action = if *r == 1 { "add" } else { "change" };
        write!(out, "Node-path: s{sheet}\nNode-kind: file\nNode-action: {action}\nText-content-length: {0}\nContent-length: {0}\n\n", bytes.len()).expect("memory");
        out.extend(bytes);
        out.extend(b"\n\n");
    }
    out
}

impl Repository {
    /// None where the commands are not installed.
    pub fn load(dir: &Path, rows: &[(usize, u8, Vec<u8>)]) -> Option<Repository> {
        if !["svn", "svnadmin", "svnlook"].iter().all(|n| there(n)) {
            return None;
        }
        let (repository, work) = (dir.join("repository"), dir.join("work"));
        output(Command::new("svnadmin").arg("create").arg(&repository));
        let mut load = Command::new("svnadmin").args(["load", "-q"]).arg(&repository).stdin(Stdio::piped()).spawn().expect("it starts");
        load.stdin.take().expect("it has one").write_all(&dump(rows)).expect("it reads");
        assert!(load.wait().expect("it ends").success());
        let url = format!("file://{}", repository.display());
        output(Command::new("svn").args(["checkout", "-q", &url]).arg(&work));
        Some(Repository { repository, work, url })
    }

    pub fn version(&self) -> String {
        String::from_utf8_lossy(&output(Command::new("svn").args(["--version", "-q"]))).trim().to_string()
    }

    pub fn start(&self) {
        output(Command::new("svn").args(["--version", "-q"]));
    }

    pub fn write(&self, sheet: u32, bytes: &[u8]) {
        std::fs::write(self.work.join(format!("s{sheet}")), bytes).expect("the working copy is there");
    }

    pub fn commit(&self) {
        output(Command::new("svn").args(["commit", "-q", "-m", "x"]).arg(&self.work));
    }

    pub fn cat(&self, r: u32, sheet: u32) -> Vec<u8> {
        output(Command::new("svn").args(["cat", "-r", &r.to_string(), &format!("{}/s{sheet}", self.url)]))
    }

    pub fn look(&self, r: u32, sheet: u32) -> Vec<u8> {
        output(Command::new("svnlook").args(["cat", "-r", &r.to_string()]).arg(&self.repository).arg(format!("s{sheet}")))
    }

    pub fn update(&self, r: Option<u32>) {
        let r = r.map_or("HEAD".to_string(), |r| r.to_string());
        output(Command::new("svn").args(["update", "-q", "-r", &r]).arg(&self.work));
    }

    pub fn verify(&self) {
        output(Command::new("svnadmin").args(["verify", "-q"]).arg(&self.repository));
    }
}
