//! The files of proofs that a file of proofs rests on, by its imports.

use std::collections::BTreeSet;
use std::fs;
use std::path::{Path, PathBuf};

/// The file of the module that a `use` line names, if it is one of proofs: `Rattle.CRATE.proofs.NAME` is `crates/CRATE/proofs/NAME.antt`.
fn proof_file(line: &str) -> Option<PathBuf> {
    let path = line.strip_prefix("use Rattle.")?.split_whitespace().next()?;
    let path = path.split(".{").next()?;
    let (name, module) = path.split_once('.')?;
    let module = module.strip_prefix("proofs.")?;
    Some(Path::new("crates").join(name).join("proofs").join(module.replace('.', "/") + ".antt"))
}

/// The file, and every file of proofs that it imports, and so on.
pub fn reached(root: &Path, from: &Path) -> BTreeSet<PathBuf> {
    let mut found = BTreeSet::new();
    let mut left = vec![from.to_path_buf()];
    while let Some(file) = left.pop() {
        let Ok(text) = fs::read_to_string(root.join(&file)) else {
            continue;
        };
        if found.insert(file) {
            left.extend(text.lines().filter_map(proof_file));
        }
    }
    found
}

#[cfg(test)]
mod tests {
    use super::*;

    #[test]
    fn files_of_imports() {
        let file = |line| proof_file(line).map(|path| path.display().to_string());
        assert_eq!(file("use Rattle.recovery.proofs.Restored.{restored}"), Some("crates/recovery/proofs/Restored.antt".into()));
        assert_eq!(file("use Rattle.drive.proofs.Origin as Origin"), Some("crates/drive/proofs/Origin.antt".into()));
        assert_eq!(file("use Rattle.drive.specs.Step.{Cut}"), None);
        assert_eq!(file("use lib.ListN.{length}"), None);
    }
}
