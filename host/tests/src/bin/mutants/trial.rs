//! One version of the reference, built and compared with the reference as it stands.

use crate::copy;
use crate::edit::Edit;
use compare::compare::Compare;
use compare::failure::Checked;
use compare::groups;
use std::collections::BTreeSet;
use std::path::{Path, PathBuf};

/// The seeds of two runs lie so far apart that no two groups share one.
const APART: u64 = 1000;

pub struct Trial<'a> {
    pub reference: &'a Path,
    pub work: &'a Path,
    pub seed: u64,
    pub runs: u64,
}

impl Trial<'_> {
    /// The reference as it stands agrees in each run; else where it does not.
    pub fn unbroken(&self) -> Result<String, String> {
        let driver = self.driver("unbroken", |_| Ok(()))?;
        for run in 0..self.runs {
            self.run(&driver, run)
                .map_err(|failure| format!("the unbroken reference differs\n{failure}"))?;
        }
        Ok(format!("agrees in {} of {} runs", self.runs, self.runs))
    }

    /// A wrong version is caught in each run, and by which groups; else why it counts as not caught.
    pub fn caught(&self, edit: &Edit) -> Result<String, String> {
        let driver = self.driver(&edit.label, |copy| edit.make(copy))?;
        let mut groups = BTreeSet::new();
        let mut times = 0;
        for run in 0..self.runs {
            match self.run(&driver, run) {
                Ok(()) => {}
                Err(failure) if failure.answered => {
                    groups.insert(failure.group);
                    times += 1;
                }
                Err(failure) => return Err(format!("it ends and does not answer\n{failure}")),
            }
        }
        let groups: Vec<&str> = groups.into_iter().collect();
        let by = if times > 0 { ", by " } else { "" };
        let how = format!(
            "caught in {times} of {} runs{by}{}",
            self.runs,
            groups.join("; ")
        );
        if times == self.runs {
            Ok(how)
        } else {
            Err(how)
        }
    }

    /// The driver of a copy in which something was changed.
    fn driver(
        &self,
        label: &str,
        change: impl Fn(&Path) -> Result<(), String>,
    ) -> Result<PathBuf, String> {
        let copy = self.work.join(label);
        copy::made(self.reference, &copy).map_err(|error| format!("no copy: {error}"))?;
        change(&copy)?;
        copy::built(&copy)
    }

    /// All groups in one of the runs, up to the first difference.
    fn run(&self, driver: &Path, run: u64) -> Checked<()> {
        let mut compare = Compare::with(vec![driver.display().to_string()])?;
        let seed = self.seed.wrapping_add(run * APART);
        groups::all(&mut compare, seed, |_, _| Ok(()))
    }
}
