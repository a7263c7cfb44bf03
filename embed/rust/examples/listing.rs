//! The report and the run of a script from Rust. Usage: listing < SCRIPT; the script has two variables, and starts from 0 and 1.
use std::io::{Read, Write};

fn main() {
    let mut file = Vec::new();
    std::io::stdin().read_to_end(&mut file).unwrap();
    let mut scratch = vec![0; diftanew::SCRATCH];
    let mut buffer = [0; diftanew::REPORT];
    let length = diftanew::report(&file, &diftanew::ONES, &mut scratch, &mut buffer).expect("refused");
    std::io::stdout().write_all(&buffer[..length]).unwrap();
    let mut store = [0, 1];
    let run = diftanew::run(&file, &diftanew::ONES, &mut scratch, &mut store, &[], 32).expect("refused");
    println!("ending={} {}\nticks={}\nused={}\nstore={} {}", run.ending as u8, run.row, run.ticks, run.used, store[0], store[1]);
    for l in run.loops {
        println!("loop={} {} {}", l.row, l.all, l.most);
    }
}
