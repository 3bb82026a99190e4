//! Writes the kept answers into the folder that is named to it, with a README that counts them.

use harness::{guard, kept};
use std::path::Path;
use std::{env, fs, io};

const README: &str = include_str!("../kept/README.md");

fn main() -> io::Result<()> {
    let folder = env::args().nth(1).expect("usage: vectors FOLDER");
    let folder = Path::new(&folder);
    let all = kept::all();
    guard::silence();
    for kept in &all {
        let lines = |lines: &[String]| lines.iter().map(|line| format!("{line}\n")).collect::<String>();
        assert!(kept.requests.iter().chain(&kept.answers).all(|line| line.len() < 60_000), "lines stay short");
        fs::write(folder.join(format!("{}.requests", kept.name)), lines(&kept.requests))?;
        fs::write(folder.join(format!("{}.answers", kept.name)), lines(&kept.answers))?;
    }
    let table = kept::statistics::table(&all);
    fs::write(folder.join("README.md"), README.replace("TABLE\n", &table))?;
    print!("{table}");
    Ok(())
}
