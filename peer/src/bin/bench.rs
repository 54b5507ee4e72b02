//! For each sheet of `../sheets`, or for those named, the time of the tuned programme and, with the
//! feature `library`, that of the library and their ratio.

use peer::sheet::MOST_CANDIDATES;
use std::env;
use std::fs;
use std::io;
use std::path::{Path, PathBuf};
use std::thread;
use std::time::{Duration, Instant};

const MOST_RUNS: usize = 101;
const LONGEST_TIME: Duration = Duration::from_secs(2);
const STACK: usize = 16 << 20;

fn main() -> io::Result<()> {
    let wanted: Vec<String> = env::args().skip(1).collect();
    let mut sheets = sheets()?;
    sheets.retain(|(name, _)| wanted.is_empty() || wanted.contains(name));
    let measuring = thread::Builder::new()
        .stack_size(STACK)
        .spawn(move || measure_all(&sheets))?;
    measuring.join().expect("the measurements come to an end");
    Ok(())
}

fn sheets() -> io::Result<Vec<(String, Vec<u8>)>> {
    let folder = Path::new(env!("CARGO_MANIFEST_DIR")).join("../sheets");
    let mut paths: Vec<PathBuf> = fs::read_dir(folder)?
        .map(|entry| entry.map(|entry| entry.path()))
        .collect::<io::Result<_>>()?;
    paths.retain(|path| path.extension().is_some_and(|extension| extension == "txt"));
    paths.sort();
    let named = |path: PathBuf| {
        let name = path.file_stem().unwrap_or_default();
        let name = name.to_string_lossy().into_owned();
        fs::read(&path).map(|text| (name, text))
    };
    paths.into_iter().map(named).collect()
}

fn median(mut run: impl FnMut()) -> Duration {
    let begun = Instant::now();
    let mut times = Vec::new();
    while times.is_empty() || times.len() < MOST_RUNS && begun.elapsed() < LONGEST_TIME {
        let run_begun = Instant::now();
        run();
        times.push(run_begun.elapsed());
    }
    times.sort_unstable();
    times[times.len() / 2]
}

fn milliseconds(time: Duration) -> f64 {
    time.as_secs_f64() * 1000.0
}

fn peer_time(text: &[u8]) -> Duration {
    let mut chain = vec![0; MOST_CANDIDATES];
    median(|| {
        std::hint::black_box(peer::assemble(text, &mut chain));
    })
}

#[cfg(feature = "library")]
fn measure_all(sheets: &[(String, Vec<u8>)]) {
    println!(
        "{:12} {:>12} {:>12} {:>8}",
        "sheet", "library ms", "peer ms", "ratio"
    );
    for (name, text) in sheets {
        let mut chain = vec![0; MOST_CANDIDATES];
        let library = milliseconds(median(|| {
            std::hint::black_box(peer::library::assemble(text, &mut chain));
        }));
        let peer = milliseconds(peer_time(text));
        println!(
            "{name:12} {library:12.3} {peer:12.3} {:8.2}",
            library / peer
        );
    }
}

#[cfg(not(feature = "library"))]
fn measure_all(sheets: &[(String, Vec<u8>)]) {
    println!("{:12} {:>12}", "sheet", "peer ms");
    for (name, text) in sheets {
        println!("{name:12} {:12.3}", milliseconds(peer_time(text)));
    }
}
