//! The instructions of both sides, counted by callgrind: the same rows as the table of times.
//!
//! `oracle bench --instructions` runs itself under valgrind. There each side of a row runs once to
//! load what is loaded on demand, and once between two marks to the tool, which dumps the count.

use std::fs;
use std::path::Path;
use std::process::Command;
use std::sync::atomic::{AtomicBool, Ordering};

/// Set in the run under valgrind.
static COUNTED: AtomicBool = AtomicBool::new(false);

/// This run is the one under valgrind.
pub fn begin() {
    COUNTED.store(true, Ordering::Relaxed);
}

/// Whether it is.
pub fn counted() -> bool {
    COUNTED.load(Ordering::Relaxed)
}

/// Requests of callgrind.h: the tool's letters, and a number.
const ZERO: usize = 0x4354_0001;
const DUMP: usize = 0x4354_0000;
const START: usize = 0x4354_0004;
const STOP: usize = 0x4354_0005;

/// A request to valgrind; outside it nothing happens.
#[inline(never)]
fn request(number: usize) {
    let words: [usize; 6] = [number, 0, 0, 0, 0, 0];
    // SAFETY: the words that valgrind.h names for x86-64. Without valgrind they turn rdi round to
    // where it was and change nothing.
    #[cfg(target_arch = "x86_64")]
    unsafe {
        std::arch::asm!(
            "rol rdi, 3",
            "rol rdi, 13",
            "rol rdi, 61",
            "rol rdi, 51",
            "xchg rbx, rbx",
            in("rax") words.as_ptr(),
            inout("rdx") 0usize => _,
        );
    }
}

/// Counts one run of `f`, in a dump of its own.
pub fn count(f: &mut dyn FnMut()) {
    f();
    request(START);
    request(ZERO);
    f();
    request(DUMP);
    request(STOP);
}

/// Tells the run that reads the dumps which ones come next.
pub fn tell(service: &str, size: usize, calls: usize) {
    println!("{service}\t{size}\t{calls}");
}

/// The total of dump number n.
fn total(folder: &Path, n: usize) -> Result<f64, String> {
    let file = folder.join(format!("dump.{n}"));
    let text = fs::read_to_string(&file).map_err(|e| format!("{}: {e}", file.display()))?;
    let line = text.lines().find_map(|l| l.strip_prefix("totals: "));
    let number = line.and_then(|l| l.split_whitespace().next()?.parse().ok());
    number.ok_or(format!("{}: no total", file.display()))
}

/// Runs the chosen services under valgrind and prints the table.
pub fn table(words: &[String]) -> Result<bool, String> {
    let folder = std::env::temp_dir().join(format!("oracle-instructions-{}", std::process::id()));
    fs::create_dir_all(&folder).map_err(|e| format!("{}: {e}", folder.display()))?;
    let program = std::env::current_exe().map_err(|e| e.to_string())?;
    let output = Command::new("valgrind")
        .args(["-q", "--tool=callgrind", "--instr-atstart=no"])
        .arg(format!(
            "--callgrind-out-file={}",
            folder.join("dump").display()
        ))
        .arg(program)
        .args(["bench", "--counted"])
        .args(words)
        .output()
        .map_err(|e| format!("valgrind: {e}"))?;
    if !output.status.success() {
        return Err(format!(
            "valgrind: {}",
            String::from_utf8_lossy(&output.stderr)
        ));
    }
    println!(
        "{:<30} {:>5} {:>10} {:>10} {:>6}",
        "service", "size", "rattle", "rust", "ratio"
    );
    let mut dumps = 0;
    for line in String::from_utf8_lossy(&output.stdout).lines() {
        let [service, size, calls] = line.split('\t').collect::<Vec<_>>()[..] else {
            continue;
        };
        let calls: f64 = calls.parse().map_err(|_| "a row without calls")?;
        let mut next = || {
            dumps += 1;
            total(&folder, dumps).map(|t| t / calls)
        };
        let (ours, theirs) = (next()?, next()?);
        println!(
            "{service:<30} {size:>5} {ours:>10.0} {theirs:>10.0} {:>6.2}",
            ours / theirs
        );
    }
    fs::remove_dir_all(&folder).map_err(|e| format!("{}: {e}", folder.display()))?;
    Ok(true)
}
