//! The edits of `crates/*/must-fail/`, which the check must refuse. A replacement is a line `old: ..` and a line `new: ..`, in the file of
//! the last line `file: ..`. A joint edit holds several faults, each behind a line `# FUNCTION: what is wrong`.

use std::path::{Path, PathBuf};

pub struct Replacement {
    /// From the folder of the crates' folder on.
    pub file: PathBuf,
    pub old: String,
    pub new: String,
}

/// One thing that is wrong.
pub struct Fault {
    /// CRATE/EDIT, and in a joint edit CRATE/EDIT/FUNCTION.
    pub name: String,
    /// In the edit's own words.
    pub breaks: String,
    pub replacements: Vec<Replacement>,
}

impl Fault {
    /// Is it in code alone, and not in a definition or a contract, of which an equality is a part?
    pub fn is_of_code(&self) -> bool {
        let in_src = |replacement: &Replacement| replacement.file.components().any(|part| part.as_os_str() == "src");
        self.replacements.iter().all(|replacement| in_src(replacement) && !replacement.old.contains('≡'))
    }

    /// By its own name, or by that of the edit that it is in.
    pub fn is_named(&self, name: &str) -> bool {
        self.name.strip_prefix(name).is_some_and(|rest| rest.is_empty() || rest.starts_with('/'))
    }
}

/// All faults of the edits of these crates, by the edits' names.
pub fn faults(crates: &Path) -> Vec<Fault> {
    let folders = entries(crates);
    folders
        .iter()
        .flat_map(|folder| entries(&folder.join("must-fail")))
        .filter(|path| ends_in_edit(path))
        .flat_map(|path| of_file(&path))
        .collect()
}

fn entries(folder: &Path) -> Vec<PathBuf> {
    let entries = std::fs::read_dir(folder).into_iter().flatten();
    let mut paths: Vec<PathBuf> = entries.filter_map(|entry| Some(entry.ok()?.path())).collect();
    paths.sort();
    paths
}

fn ends_in_edit(path: &Path) -> bool {
    path.extension().is_some_and(|ending| ending == "edit")
}

fn of_file(path: &Path) -> Vec<Fault> {
    let text = std::fs::read_to_string(path).expect("an edit can be read");
    let folder = path.ancestors().nth(2).expect("an edit lies in a crate's must-fail");
    let name = |path: &Path| path.file_stem().unwrap_or_default().to_string_lossy().to_string();
    of_edit(&name(folder), &name(path), &text)
}

/// The last comment before a replacement says what is wrong; a replacement without one goes with that before it.
fn of_edit(of_crate: &str, edit: &str, text: &str) -> Vec<Fault> {
    let mut faults: Vec<Fault> = Vec::new();
    let (mut comment, mut file, mut old) = (None, PathBuf::new(), "");
    for line in text.lines() {
        if let Some(words) = line.strip_prefix("# ") {
            comment = Some(words);
        } else if let Some(path) = line.strip_prefix("file: ") {
            file = Path::new("crates").join(of_crate).join(path);
        } else if let Some(text) = line.strip_prefix("old: ") {
            old = text;
        } else if let Some(text) = line.strip_prefix("new:") {
            let new = text.strip_prefix(' ').unwrap_or(text).to_string();
            let replacement = Replacement { file: file.clone(), old: old.to_string(), new };
            add(&mut faults, comment.take(), replacement);
        }
    }
    let joint = faults.len() > 1;
    for fault in &mut faults {
        let function = fault.breaks.split_once(": ").filter(|_| joint).map_or(String::new(), |(function, _)| format!("/{function}"));
        fault.name = format!("{of_crate}/{edit}{function}");
    }
    faults
}

fn add(faults: &mut Vec<Fault>, comment: Option<&str>, replacement: Replacement) {
    match (comment, faults.last_mut()) {
        (None, Some(fault)) => fault.replacements.push(replacement),
        _ => {
            let breaks = comment.unwrap_or_default().to_string();
            faults.push(Fault { name: String::new(), breaks, replacements: vec![replacement] });
        }
    }
}

#[cfg(test)]
mod tests {
    use super::*;

    /// Each fault's name, what it breaks, and its replacements.
    fn told(text: &str) -> Vec<String> {
        let one = |replacement: &Replacement| format!("{}: {} for {}", replacement.file.display(), replacement.new, replacement.old);
        let replaced = |fault: &Fault| fault.replacements.iter().map(one).collect::<Vec<String>>().join("; ");
        let faults = of_edit("text", "lines", text);
        faults.iter().map(|fault| format!("{}, {}, {}", fault.name, fault.breaks, replaced(fault))).collect()
    }

    #[test]
    fn an_edit_of_one_fault() {
        let one = "# put: one more\nfile: src/lib.rt\nold: a\nnew: b\n";
        assert_eq!(told(one), ["text/lines, put: one more, crates/text/src/lib.rt: b for a"]);
        let two = format!("{one}old:  c d\nnew:\n");
        assert_eq!(told(&two), ["text/lines, put: one more, crates/text/src/lib.rt: b for a; crates/text/src/lib.rt:  for  c d"]);
    }

    #[test]
    fn a_joint_edit() {
        let first = "# what is ruled out\nfile: src/lib.rt\n# put: one more\nold: a\nnew: b\n";
        let second = "file: src/other.rt\n# take: none\nold: c\nnew: d\n";
        let third = "# both: other words\nfile: specs/Lib.antt\nold: e\nnew: f\n";
        let wanted = [
            "text/lines/put, put: one more, crates/text/src/lib.rt: b for a",
            "text/lines/take, take: none, crates/text/src/other.rt: d for c",
            "text/lines/both, both: other words, crates/text/specs/Lib.antt: f for e",
        ];
        assert_eq!(told(&[first, second, third].concat()), wanted);
        let faults = of_edit("text", "lines", &[first, second, third].concat());
        assert_eq!([0, 1, 2].map(|place| faults[place].is_of_code()), [true, true, false]);
        assert_eq!(["text/lines", "text/lines/put", "text/line"].map(|name| faults[0].is_named(name)), [true, true, false]);
    }
}
