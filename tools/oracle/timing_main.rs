//! Times the crate: one line for each size, in the units of crates/bench.

use std::process::ExitCode;

fn main() -> ExitCode {
    let mut sizes = Vec::new();
    for word in std::env::args().skip(1) {
        match word.parse::<usize>() {
            Ok(size) if (160..=1_048_570).contains(&size) && size % 10 == 0 => sizes.push(size),
            _ => {
                eprintln!("timing: not a whole number of tens from 160 to 1048570: {word}");
                return ExitCode::from(1);
            }
        }
    }
    if sizes.is_empty() {
        eprintln!("usage: timing SIZE..");
        return ExitCode::from(1);
    }
    println!("declarations  file bytes  build us  encode us  search us  walk ns  checksum");
    for size in sizes {
        let m = aya_obj::timing::measure(size);
        let [build, encode, search, walk] = m.times;
        println!(
            "{:>12}  {:>10}  {:>8.1}  {:>9.1}  {:>9.1}  {:>7.0}  {:016x}",
            m.size,
            m.bytes,
            build * 1e6,
            encode * 1e6,
            search * 1e6,
            walk * 1e9,
            m.checksum
        );
    }
    ExitCode::SUCCESS
}
