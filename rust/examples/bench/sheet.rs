//! What was measured.

use std::os::raw::c_long;

unsafe extern "C" {
    /// The processor time of this process, in microseconds on POSIX systems.
    safe fn clock() -> c_long;
}

/// The figures of this crate's map and of std's map, by their lines.
#[derive(Default)]
pub struct Sheet {
    lines: Vec<(String, [f64; 2])>,
}

/// Which map a figure is of.
#[derive(Clone, Copy)]
pub enum Map {
    Ours,
    Std,
}

impl Sheet {
    /// Times a closure that makes so many calls, keeps the least figure of its line, and returns
    /// what the closure returns.
    pub fn time<T>(&mut self, map: Map, line: &str, calls: usize, f: impl FnOnce() -> T) -> T {
        let start = clock();
        let answer = f();
        let each = (clock() - start) as f64 * 1000.0 / calls.max(1) as f64;
        let at = self
            .lines
            .iter()
            .position(|known| known.0 == line)
            .unwrap_or_else(|| {
                self.lines.push((line.to_string(), [f64::INFINITY; 2]));
                self.lines.len() - 1
            });
        let least = &mut self.lines[at].1[map as usize];
        *least = least.min(each);
        answer
    }

    /// Prints the lines as a table.
    pub fn print(&self, title: &str, only: &[String]) {
        println!("\n| {title} | ours | std | ratio |\n|---|---|---|---|");
        for (line, [ours, std]) in &self.lines {
            if only.is_empty() || only.contains(line) {
                println!("| {line} | {ours:.0} | {std:.0} | {:.2} |", ours / std);
            }
        }
    }
}
