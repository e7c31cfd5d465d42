//! A folder of its own for each test, gone after it.

use std::env;
use std::fs;
use std::path::{Path, PathBuf};
use std::process;

pub struct Folder {
    path: PathBuf,
}

impl Folder {
    /// Named after its test, so that no two have the same.
    pub fn new(test: &str) -> Folder {
        let name = format!("pankvisolo-store-{}-{test}", process::id());
        let path = env::temp_dir().join(name);
        fs::create_dir_all(&path).expect("the temporary folder takes folders");
        Folder { path }
    }

    pub fn path(&self) -> &Path {
        &self.path
    }

    pub fn file(&self, name: &str) -> PathBuf {
        self.path.join(name)
    }

    /// A file with these bytes.
    pub fn with(&self, name: &str, bytes: &[u8]) -> PathBuf {
        let path = self.file(name);
        fs::write(&path, bytes).expect("the folder takes files");
        path
    }
}

impl Drop for Folder {
    fn drop(&mut self) {
        // Where it is still in use, the system cleans up.
        let _ = fs::remove_dir_all(&self.path);
    }
}
