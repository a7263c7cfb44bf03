//! A live run over datagrams: live FILE Q [VALUE ..]. Takes the stage manager's picks as short text datagrams on the loopback address, whose port it
//! prints first: each character is a pick, `0` takes the else. Gives the script Q ticks a frame, 44 frames a second, and prints each cue as it fires,
//! `cue=NUMBER FRAME`, and at the end `ended` or `range`, the ticks and the frames. It waits for a pick for ten seconds at most.
use diftanew::live::{self, Frame, Status};
use std::net::UdpSocket;
use std::time::{Duration, Instant};

/// One frame.
const FRAME: Duration = Duration::from_micros(1_000_000 / 44);
/// Frames without a pick after which it gives up.
const PATIENCE: u32 = 440;

/// The picks that have come: 0 for `0`, 1 for any other character but blanks.
fn arrived(socket: &UdpSocket, picks: &mut Vec<u8>) {
    let mut datagram = [0; 64];
    while let Ok(length) = socket.recv(&mut datagram) {
        picks.extend(datagram[..length].iter().filter(|c| !c.is_ascii_whitespace()).map(|c| (*c != b'0') as u8));
    }
}

fn main() -> Result<(), Box<dyn std::error::Error>> {
    let arguments: Vec<String> = std::env::args().skip(1).collect();
    let [name, q, values @ ..] = &arguments[..] else { return Err("use: live FILE Q [VALUE ..]".into()) };
    let (file, q) = (std::fs::read(name)?, q.parse()?);
    let mut store = values.iter().map(|value| value.parse()).collect::<Result<Vec<i32>, _>>()?;
    let (mut scratch, mut state) = ([0; diftanew::SCRATCH], [0; live::STATE]);
    live::start(&file, &diftanew::ONES, &mut scratch, &store, &mut state)?;

    let socket = UdpSocket::bind("127.0.0.1:0")?;
    socket.set_nonblocking(true)?;
    println!("port={}", socket.local_addr()?.port());
    let (mut picks, mut cues) = (Vec::new(), [0; 64]);
    let (mut frame, mut waited) = (0u32, 0);
    let begin = Instant::now();
    while waited < PATIENCE {
        arrived(&socket, &mut picks);
        let step = live::step(&file, &diftanew::ONES, &mut scratch, &mut store, &mut state, Frame { q, picks: &picks, cues: &mut cues })?;
        picks.drain(..step.used);
        frame += 1;
        for cue in &cues[..step.cues] {
            println!("cue={cue} {frame}");
        }
        if step.status.finished() {
            println!("{} ticks={} frames={frame}", if step.status == Status::Ended { "ended" } else { "range" }, step.all_ticks);
            return Ok(());
        }
        waited = if step.status == Status::Waits { waited + 1 } else { 0 };
        // The next frame's time, not a frame from now: a late frame is not carried on.
        std::thread::sleep((begin + FRAME * frame).saturating_duration_since(Instant::now()));
    }
    Err("no pick came for ten seconds".into())
}
