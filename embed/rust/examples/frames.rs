//! Two scripts in one frame from Rust, 20 ticks a frame. Usage: frames LISTING LANTERN, the two files in `examples`.
fn main() {
    let files: Vec<Vec<u8>> = std::env::args().skip(1).map(|name| std::fs::read(name).unwrap()).collect();
    let (mut listing, mut lantern) = ([0, 1], [1, 100]);
    let mut scripts = [
        diftanew::Script { file: &files[0], store: &mut listing, picks: &[] },
        diftanew::Script { file: &files[1], store: &mut lantern, picks: &[1; 19] },
    ];
    let mut scratch = vec![0; diftanew::SCRATCH];
    let frames = diftanew::frames(&mut scripts, &diftanew::ONES, 20, &mut scratch).expect("refused");
    for (script, (frame, run)) in frames.scripts.iter().enumerate() {
        println!("script={script}\nframe={frame}\nending={} {}\nticks={}\nused={}", run.ending as u8, run.row, run.ticks, run.used);
        println!("store={:?}", scripts[script].store);
        for l in &run.loops {
            println!("loop={} {} {}", l.row, l.all, l.most);
        }
    }
    println!("most={}", frames.most);
}
