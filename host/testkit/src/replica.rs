//! A small copy of the repository, whose scripts find tools of a test's own.

use std::fs;
use std::os::unix::fs::{symlink, PermissionsExt};
use std::path::{Path, PathBuf};
use std::process::{Command, Stdio};

use crate::run::repository;

/// A folder with the copy in `root` and the test's tools in `bin`.
pub struct Replica {
    pub folder: PathBuf,
}

impl Replica {
    /// A new folder with texts.
    pub fn new(folder: PathBuf, texts: &[(&str, &str)]) -> Replica {
        let _ = fs::remove_dir_all(&folder);
        let replica = Replica { folder };
        for (name, text) in texts {
            replica.write(name, text);
        }
        replica
    }

    pub fn root(&self) -> PathBuf {
        self.folder.join("root")
    }

    /// Writes a text that may be run.
    pub fn write(&self, name: &str, text: &str) {
        let path = self.folder.join(name);
        fs::create_dir_all(path.parent().expect("a folder")).expect("a folder");
        fs::write(&path, text).expect("a file");
        fs::set_permissions(&path, PermissionsExt::from_mode(0o755)).expect("a mode");
    }

    /// Copies scripts of the repository.
    pub fn copy(&self, names: &[&str]) {
        for name in names {
            let text = fs::read_to_string(repository().join(name)).expect("a script");
            self.write(&format!("root/{name}"), &text);
        }
    }

    /// A script of the copy, run in the folder, with the test's tools first on the PATH.
    pub fn command(&self, script: &str, words: &[&str]) -> Command {
        let mut command = Command::new("bash");
        command.arg(self.root().join(script)).args(words);
        command.current_dir(&self.folder).stdin(Stdio::null());
        command.env("PATH", self.path().join(":"));
        command
    }

    /// How many lines the test's tools left in a file of the copy.
    pub fn count(&self, name: &str) -> usize {
        self.left(name).lines().count()
    }

    /// What the test's tools left in a file of the copy.
    pub fn left(&self, name: &str) -> String {
        fs::read_to_string(self.root().join(name)).unwrap_or_default()
    }

    fn path(&self) -> Vec<String> {
        let path = std::env::var("PATH").expect("a PATH");
        let bin = self.folder.join("bin").display().to_string();
        let folders = path.split(':').map(str::to_string);
        std::iter::once(bin).chain(folders).collect()
    }

    /// The PATH without a tool: for a folder that has it stands one with links to
    /// the others of that folder.
    pub fn path_without(&self, tool: &str) -> String {
        let links = self.folder.join(format!("without {tool}"));
        let _ = fs::remove_dir_all(&links);
        let path = self.path().into_iter().enumerate().map(|(k, folder)| {
            if !Path::new(&folder).join(tool).exists() {
                return folder;
            }
            let links = links.join(k.to_string());
            link_others(Path::new(&folder), tool, &links);
            links.display().to_string()
        });
        path.collect::<Vec<_>>().join(":")
    }
}

/// Nothing of a copy stays: `rt ci` takes a copy of crates.txt below the repository for a mistake.
impl Drop for Replica {
    fn drop(&mut self) {
        let _ = fs::remove_dir_all(&self.folder);
    }
}

fn link_others(folder: &Path, tool: &str, links: &Path) {
    fs::create_dir_all(links).expect("a folder");
    for entry in fs::read_dir(folder).expect("a folder of the PATH") {
        let path = entry.expect("an entry").path();
        let name = path.file_name().expect("a name");
        if name != tool {
            symlink(&path, links.join(name)).expect("a link");
        }
    }
}
