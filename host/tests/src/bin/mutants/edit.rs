//! Edits that make a copy of the reference wrong, in the form of the crates' must-fail edits:
//!
//! ```text
//! # what is wrong
//! file: src/link.rs
//! in: fn idle(
//! old: elapsed >= 3000
//! new: elapsed > 3000
//! ```
//!
//! `in:` may be left out. It names the function in which the old text stands, for a text that stands
//! in others too. The old text stands there once. Several changes may follow each other.

use std::fs;
use std::path::Path;

/// One change of one file.
#[derive(Clone, Default)]
struct Change {
    file: String,
    /// The first words of the function that it is in; empty for the whole file.
    place: String,
    old: String,
    new: String,
}

pub struct Edit {
    pub label: String,
    /// What is wrong, as the first line says it.
    pub wrong: String,
    changes: Vec<Change>,
}

/// All edits of a directory, in the order of their names.
pub fn all(directory: &Path) -> Result<Vec<Edit>, String> {
    let listed = fs::read_dir(directory).map_err(|error| error.to_string())?;
    let mut paths: Vec<_> = listed.flatten().map(|entry| entry.path()).collect();
    paths.retain(|path| path.extension().map_or(false, |end| end == "edit"));
    paths.sort();
    paths.iter().map(|path| Edit::read(path)).collect()
}

impl Edit {
    fn read(path: &Path) -> Result<Edit, String> {
        let text = fs::read_to_string(path).map_err(|error| error.to_string())?;
        let label = path.file_stem().unwrap_or_default();
        let label = label.to_string_lossy().to_string();
        let (wrong, changes) =
            parsed(&text).ok_or_else(|| format!("{} is not an edit", path.display()))?;
        Ok(Edit {
            label,
            wrong,
            changes,
        })
    }

    /// Makes the changes in a copy of the reference.
    pub fn make(&self, copy: &Path) -> Result<(), String> {
        for change in &self.changes {
            let path = copy.join(&change.file);
            let text = fs::read_to_string(&path).map_err(|error| format!("{path:?}: {error}"))?;
            let changed = change
                .made(&text)
                .ok_or_else(|| format!("{path:?} does not have `{}` once", change.old))?;
            fs::write(&path, changed).map_err(|error| error.to_string())?;
        }
        Ok(())
    }
}

/// What is wrong, and the changes that make it so.
fn parsed(text: &str) -> Option<(String, Vec<Change>)> {
    let mut lines = text.lines();
    let wrong = lines.next()?.strip_prefix("# ")?.to_string();
    let mut changes = vec![];
    let mut change = Change::default();
    for line in lines {
        let (key, value) = line.split_once(':')?;
        let value = value.strip_prefix(' ').unwrap_or(value);
        match key {
            "file" => change.file = value.to_string(),
            "in" => change.place = value.to_string(),
            "old" => change.old = value.to_string(),
            "new" => {
                change.new = value.to_string();
                changes.push(change.clone());
            }
            _ => return None,
        }
    }
    (!changes.is_empty()).then_some((wrong, changes))
}

impl Change {
    /// The text with the change made, where the old text stands in its place once.
    fn made(&self, text: &str) -> Option<String> {
        let (start, end) = self.bounds(text)?;
        let place = &text[start..end];
        if place.matches(&self.old).count() != 1 {
            return None;
        }
        let changed = place.replace(&self.old, &self.new);
        Some([&text[..start], &changed, &text[end..]].concat())
    }

    /// Where its function starts and ends: at the first brace that closes at the start of a line.
    fn bounds(&self, text: &str) -> Option<(usize, usize)> {
        if self.place.is_empty() {
            return Some((0, text.len()));
        }
        let start = text.find(&self.place)?;
        let length = text[start..].find("\n}")?;
        Some((start, start + length))
    }
}
