//! The status for people and the metrics for Prometheus: when they are written, and where to. What they say is in `status.rs` and
//! `metrics.rs`.

use crate::desk::Desk;
use crate::output::Output;
use crate::{metrics, status};
use std::ffi::OsString;
use std::fs::{self, File};
use std::io::{self, Write};
use std::path::{Path, PathBuf};

/// Where the reports go.
pub struct Reports {
    status: Option<PathBuf>,
    metrics: Option<PathBuf>,
    standard_output: Output,
    /// What went wrong the last time, so that it is told once.
    told: Option<String>,
    /// What is served, for the first lines.
    pub about: String,
}

impl Reports {
    /// To these files; a status that is asked for goes to standard output where it has none.
    pub fn new(status: Option<PathBuf>, metrics: Option<PathBuf>, about: String) -> io::Result<Self> {
        Ok(Reports {
            status,
            metrics,
            standard_output: Output::standard(&io::stdout())?,
            told: None,
            about,
        })
    }

    /// Writes both, and gives what went wrong if it is news.
    pub fn write(&mut self, desk: &Desk, restarted: u64, asked: bool) -> Result<(), String> {
        let mut written = Ok(());
        if self.status.is_some() || asked {
            let text = status::text(desk, restarted, &self.about);
            match &self.status {
                Some(path) => written = replace(path, &text),
                None => self.standard_output.put(&text),
            }
        }
        if let Some(path) = &self.metrics {
            written = written.and(replace(path, &metrics::text(desk, restarted)));
        }
        let known = self.told.clone();
        self.told = written.clone().err();
        if self.told == known { Ok(()) } else { written }
    }

    /// Writes out what standard output did not take.
    pub fn flush(&mut self) {
        self.standard_output.flush();
    }
}

/// Puts a new file in the place of the old one, so that a reader never sees half of it. It is made under a name of its own, and never
/// follows a link that somebody has put there.
fn replace(path: &Path, text: &str) -> Result<(), String> {
    let mut name = OsString::from(".");
    name.push(path.file_name().unwrap_or_default());
    name.push(format!(".{}.new", std::process::id()));
    let new = path.with_file_name(name);
    let write = || {
        // A device, a named pipe or a link is left alone: the rename would put a file in its place.
        if fs::symlink_metadata(path).is_ok_and(|there| !there.is_file()) {
            return Err(io::Error::other("it is there, and it is not a file"));
        }
        let _ = fs::remove_file(&new);
        File::options()
            .write(true)
            .create_new(true)
            .open(&new)?
            .write_all(text.as_bytes())?;
        fs::rename(&new, path)
    };
    write().map_err(|error: io::Error| {
        let _ = fs::remove_file(&new);
        format!("cannot write {}: {error}", path.display())
    })
}

#[cfg(test)]
mod tests {
    use super::*;

    #[test]
    fn a_report_replaces_the_file_and_follows_no_link() {
        let folder = std::env::temp_dir().join(format!("relayd-test-{}-reports", std::process::id()));
        fs::create_dir(&folder).expect("a folder");
        let (path, elsewhere) = (folder.join("status"), folder.join("elsewhere"));
        std::os::unix::fs::symlink(&elsewhere, folder.join(format!(".status.{}.new", std::process::id()))).expect("a link");
        replace(&path, "one\ntwo\n").expect("it is written");
        replace(&path, "one\n").expect("and again");
        assert_eq!(fs::read_to_string(&path).expect("it is there"), "one\n");
        assert!(!elsewhere.exists());
        let left: Vec<_> = fs::read_dir(&folder).expect("the folder").collect();
        assert_eq!(left.len(), 1);
        let link = folder.join("link");
        std::os::unix::fs::symlink("/dev/null", &link).expect("a link");
        for path in [&link, &folder] {
            assert!(replace(path, "one\n").expect_err("it is no file").contains("not a file"));
        }
        fs::remove_dir_all(&folder).expect("it is removed");
        let why = replace(&path, "one\n").expect_err("the folder is gone");
        assert!(why.contains("status"), "{why}");
    }
}
