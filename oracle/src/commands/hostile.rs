//! `oracle hostile DIR`

use super::{Answer, told};
use oracle::stress;
use std::fmt::Write;

/// Writes DIR/NAME.msg each, and tells the verdict and what it is.
pub fn command(args: &[String]) -> Answer {
    let [dir] = args else { return Err("hostile: DIR is wanted".to_string()) };
    std::fs::create_dir_all(dir).map_err(|e| format!("{dir}: {e}"))?;
    let mut text = String::new();
    for hostile in stress::hostile()? {
        let path = format!("{dir}/{}.msg", hostile.name);
        std::fs::write(&path, &hostile.message).map_err(|e| format!("{path}: {e}"))?;
        let _ = writeln!(text, "{:<20} {:>2}  {}", hostile.name, hostile.verdict, hostile.about);
    }
    told(&text)
}
