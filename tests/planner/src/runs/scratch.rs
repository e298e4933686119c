//! The folder in which a run works: its own, in memory where the system has such a place.

use std::path::{Path, PathBuf};

/// Made, and the working directory from now on.
pub fn enter() -> PathBuf {
    let memory = Path::new("/dev/shm");
    let base = if memory.is_dir() { memory.to_path_buf() } else { std::env::temp_dir() };
    let folder = base.join(format!("planner-{}", std::process::id()));
    std::fs::create_dir_all(&folder).expect("a scratch folder can be made");
    std::env::set_current_dir(&folder).expect("the scratch folder can be entered");
    folder
}

/// Where failing cases are saved.
pub fn failed() -> PathBuf {
    std::env::temp_dir().join(format!("planner-failed-{}", std::process::id()))
}
