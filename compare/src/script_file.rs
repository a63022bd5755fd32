//! A script in a file of its own that is removed again.

use std::fs::File;
use std::path::PathBuf;
use std::sync::atomic::{AtomicU64, Ordering};

pub struct ScriptFile(PathBuf);

impl ScriptFile {
    pub fn write(text: &[u8]) -> std::io::Result<ScriptFile> {
        static WRITTEN: AtomicU64 = AtomicU64::new(0);
        let number = WRITTEN.fetch_add(1, Ordering::Relaxed);
        let path = std::env::temp_dir().join(format!("yard-script-{}-{number}.txt", std::process::id()));
        let file = ScriptFile(path);
        std::fs::write(&file.0, text)?;
        Ok(file)
    }

    pub fn open(&self) -> std::io::Result<File> {
        File::open(&self.0)
    }
}

impl Drop for ScriptFile {
    fn drop(&mut self) {
        // Nothing depends on the file being gone.
        let _ = std::fs::remove_file(&self.0);
    }
}
