//! A file with an answer that differs: printed, and kept with all that was tried in it.

use super::findings::Finding;
use super::options::Options;
use super::trial::Trial;
use std::fs;
use std::io;
use std::path::Path;

pub struct Difference<'a> {
    pub trial: &'a Trial,
    /// At least one.
    pub findings: &'a [Finding<'a>],
}

impl Difference<'_> {
    fn name(&self, end: &str) -> String {
        format!("file-{}.{end}", self.trial.number)
    }

    /// Writes the original and the changed files, and for each answer that differs
    /// the expected and the given one.
    pub fn keep(&self, keep: &Path) -> io::Result<()> {
        fs::create_dir_all(keep)?;
        for file in &self.trial.files {
            fs::write(keep.join(self.name(&file.name)), &file.bytes)?;
        }
        for Finding { file, whose, expected, got } in self.findings {
            let path = |end: &str| keep.join(self.name(&format!("{}.{whose}-{end}", file.name)));
            fs::write(path("expected"), expected)?;
            fs::write(path("got"), got)?;
        }
        Ok(())
    }

    /// The first answer that differs.
    pub fn print(&self, options: &Options) {
        let Finding { file, whose, expected, got } = &self.findings[0];
        let Trial { number, about, .. } = self.trial;
        let kept = options.keep.join(self.name(&file.name));
        println!("DIFFERENCE in file {number} of seed {}: {about}", options.seed);
        println!("  {}", file.about);
        println!("  kept as {}, beside it {}", kept.display(), self.name("original"));
        println!("  with all files before it: --seed {} --files {}", options.seed, number + 1);
        let (expected, got) = shown(expected, got);
        println!("  expected of the {whose}: {expected}");
        println!("  got:                     {got}");
    }
}

/// Short lines all in one; of long ones, as of counts, the first that differ.
fn shown(expected: &str, got: &str) -> (String, String) {
    let in_one = |text: &str| text.lines().collect::<Vec<&str>>().join(" ");
    if [expected, got].iter().all(|text| text.lines().all(|line| line.len() < 30)) {
        return (in_one(expected), in_one(got));
    }
    let equal = expected.lines().zip(got.lines()).take_while(|(one, other)| one == other).count();
    let line = |text: &str| text.lines().nth(equal).unwrap_or("nothing more").to_string();
    (line(expected), line(got))
}

#[cfg(test)]
mod tests {
    use super::shown;

    fn texts(one: &str, other: &str) -> (String, String) {
        (one.to_string(), other.to_string())
    }

    #[test]
    fn what_is_shown_of_two_answers() {
        let short = shown("result=accepted\nline=0\n", "result=refused\nline=7\n");
        assert_eq!(short, texts("result=accepted line=0", "result=refused line=7"));
        let counts = format!("counts 3 70{}", " 0".repeat(134));
        let long = shown(&format!("accepted 3\n{counts}\n"), "accepted 3\ncounts 2\n");
        assert_eq!(long, texts(&counts, "counts 2"));
        assert_eq!(shown(&counts, ""), texts(&counts, "nothing more"));
    }
}
