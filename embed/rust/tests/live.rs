//! The example `live` fed with datagrams, some of them late: it fires the cues that the same picks fire when all are there, and those that
//! `rehearse cues` lists, where DIFTANEW_REHEARSE names that program.
use diftanew::live::{self, Frame, Status};
use std::io::{BufRead, BufReader};
use std::net::UdpSocket;
use std::process::{Command, Stdio};
use std::time::Duration;

const RAIN: &str = concat!(env!("CARGO_MANIFEST_DIR"), "/../../examples/rain.eff");
/// 20 drops.
const STORE: [i32; 3] = [0, 0, 20];
const PICKS: [u8; 20] = [1, 0, 1, 1, 0, 0, 1, 0, 1, 1, 1, 0, 0, 1, 0, 1, 0, 0, 1, 1];

/// The cues of the whole run, in steps of `q` ticks with all picks that are not used, room for `room` cues.
fn cues_at_once(q: u64, room: usize) -> (Vec<u32>, u64) {
    let file = std::fs::read(RAIN).expect("the example's file");
    let (mut scratch, mut store, mut state) = ([0; diftanew::SCRATCH], STORE, [0; live::STATE]);
    let started = live::start(&file, &diftanew::ONES, &mut scratch, &store, &mut state).expect("accepted");
    let (mut cues, mut list, mut used, mut held) = (Vec::new(), vec![0; room], 0, 0);
    for frame in 1.. {
        let lent = Frame { q, picks: &PICKS[used..], cues: &mut list };
        let step = live::step(&file, &diftanew::ONES, &mut scratch, &mut store, &mut state, lent).expect("taken");
        used += step.used;
        cues.extend(&list[..step.cues]);
        assert!(step.ticks <= q, "no price is above 1");
        if step.status.finished() {
            assert_eq!((step.status, step.all_used), (Status::Ended, PICKS.len() as u64));
            assert!(frame <= started.ticks.div_ceil(q) + held, "in time");
            return (cues, step.all_ticks);
        }
        held += (step.status == Status::Full) as u64;
    }
    unreachable!()
}

/// The cues that `rehearse cues` lists, `cue=NUMBER ROW TICK` in each line.
fn cues_rehearsed(rehearse: &str) -> Vec<u32> {
    let picks: String = PICKS.map(|pick| char::from(b'0' + pick)).into_iter().collect();
    let values = STORE.map(|value| value.to_string());
    let answer = Command::new(rehearse).args(["cues", RAIN, "plan", &picks]).args(values).output().expect("rehearse is built");
    let text = String::from_utf8(answer.stdout).expect("text");
    text.lines().filter_map(|line| line.strip_prefix("cue=")?.split(' ').next()?.parse().ok()).collect()
}

#[test]
fn cutting_changes_nothing() {
    let whole = cues_at_once(1_000_000, 4_096);
    assert_eq!((whole.0.len(), whole.0[0], whole.0.last()), (112, 10, Some(&19)));
    for (q, room) in [(1, 1), (1, 64), (7, 3), (100, 2), (100, 64)] {
        assert_eq!(cues_at_once(q, room), whole, "q {q}, room {room}");
    }
}

#[test]
fn a_bad_state_is_refused_by_its_place() {
    let file = std::fs::read(RAIN).expect("the example's file");
    let (mut scratch, mut store, mut state) = ([0; diftanew::SCRATCH], STORE, [0; live::STATE]);
    let mut step = |state: &mut [u64], q| live::step(&file, &diftanew::ONES, &mut scratch, &mut store, state, Frame { q, picks: &[], cues: &mut [] });
    assert_eq!(step(&mut state[..63], 1).unwrap_err().to_string(), "refused=21 64: no run of this file can have this state (number 64)");
    state[1] = 13;
    let before = state;
    assert_eq!(step(&mut state, 1).unwrap_err().place, 1);
    assert_eq!(state, before);
    state[1] = 0;
    assert_eq!(step(&mut state, 1_000_001).unwrap_err().to_string(), "refused=22 0: more than 1,000,000 ticks for one step (place 0)");
}

#[test]
fn datagrams_that_come_late() {
    let example = std::env::current_exe().expect("a test").parent().expect("deps").parent().expect("debug").join("examples/live");
    let values = STORE.map(|value| value.to_string());
    let mut rack = Command::new(example).args([RAIN, "100"]).args(values).stdout(Stdio::piped()).spawn().expect("the example is built");
    let mut lines = BufReader::new(rack.stdout.take().expect("piped")).lines().map(|line| line.expect("text"));
    let port = lines.next().and_then(|line| line.strip_prefix("port=").map(str::to_owned)).expect("a port");
    let desk = UdpSocket::bind("127.0.0.1:0").expect("a socket");
    desk.connect(format!("127.0.0.1:{port}")).expect("the rack");
    for (i, picks) in PICKS.chunks(3).enumerate() {
        // Every second datagram is some frames late.
        std::thread::sleep(Duration::from_millis(if i % 2 == 0 { 5 } else { 150 }));
        let text: String = picks.iter().map(|pick| char::from(b'0' + pick)).collect();
        desk.send(text.as_bytes()).expect("sent");
    }
    let printed: Vec<String> = lines.collect();
    assert!(rack.wait().expect("it ends").success());
    let cues: Vec<u32> = printed.iter().filter_map(|line| line.strip_prefix("cue=")?.split(' ').next()?.parse().ok()).collect();
    let (whole, ticks) = cues_at_once(1_000_000, 4_096);
    assert_eq!(cues, whole);
    if let Ok(rehearse) = std::env::var("DIFTANEW_REHEARSE") {
        assert_eq!(cues, cues_rehearsed(&rehearse));
    }
    let last = printed.last().expect("a last line");
    assert!(last.starts_with(&format!("ended ticks={ticks} frames=")), "{last}");
}
