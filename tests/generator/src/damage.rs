//! Damage to the bytes of a file.

use crate::rng::Rng;

fn place_of(rng: &mut Rng, bytes: &[u8], wanted: impl Fn(u8) -> bool) -> Option<usize> {
    let places: Vec<usize> = (0..bytes.len()).filter(|&i| wanted(bytes[i])).collect();
    (!places.is_empty()).then(|| rng.one_of(&places))
}

/// The bytes of some number in the file; a variable's too.
fn number_at(rng: &mut Rng, bytes: &[u8]) -> Option<(usize, usize)> {
    let digit = |i: usize| bytes.get(i).is_some_and(u8::is_ascii_digit);
    let starts: Vec<usize> = (0..bytes.len()).filter(|&i| digit(i) && (i == 0 || !digit(i - 1))).collect();
    if starts.is_empty() {
        return None;
    }
    let mut start = rng.one_of(&starts);
    let mut end = start;
    while digit(end) {
        end += 1;
    }
    if start > 0 && bytes[start - 1] == b'-' {
        start -= 1;
    }
    Some((start, end))
}

fn lines(bytes: &[u8]) -> Vec<Vec<u8>> {
    bytes.split_inclusive(|&b| b == b'\n').map(<[u8]>::to_vec).collect()
}

pub fn damaged(rng: &mut Rng, mut bytes: Vec<u8>) -> Vec<u8> {
    for _ in 0..1 + rng.below(6) / 5 {
        bytes = once(rng, bytes);
    }
    bytes
}

fn once(rng: &mut Rng, mut bytes: Vec<u8>) -> Vec<u8> {
    if bytes.is_empty() {
        return bytes;
    }
    let at = rng.below(bytes.len());
    match rng.below(29) {
        0 => bytes.truncate(at),
        1 => bytes[at] ^= 1 << rng.below(8),
        2 => bytes[at] = rng.next() as u8,
        3 => {
            if let Some(at) = place_of(rng, &bytes, |b| b == b' ') {
                bytes.insert(at, b' ');
            }
        }
        4 => bytes = bytes.iter().flat_map(|&b| if b == b'\n' { vec![b'\r', b'\n'] } else { vec![b] }).collect(),
        5 => {
            if let Some(at) = place_of(rng, &bytes, |b| b == b'\n') {
                bytes.insert(at, rng.one_of(b"\r\0 \t\n"));
            }
        }
        6 => bytes.insert(at, 0),
        7 => {
            bytes.pop();
        }
        8 => {
            let more: &[u8] = rng.one_of(&[&b"\n"[..], b"\0", b" ", b"row=cue 1\n", b"x", b"\xff\xff\n"]);
            bytes.extend_from_slice(more);
        }
        9 => {
            bytes.remove(at);
        }
        10 => bytes.insert(at, rng.next() as u8),
        11 => {
            let mut all = lines(&bytes);
            all.remove(rng.below(all.len()));
            bytes = all.concat();
        }
        12 => {
            let mut all = lines(&bytes);
            let line = rng.below(all.len());
            all.insert(line, all[line].clone());
            bytes = all.concat();
        }
        13 => {
            let mut all = lines(&bytes);
            let (a, b) = (rng.below(all.len()), rng.below(all.len()));
            all.swap(a, b);
            bytes = all.concat();
        }
        14 => {
            // Another key or script number, another count.
            let text = String::from_utf8_lossy(&bytes).into_owned();
            let (old, new) = rng.one_of(&[
                ("script=1", "script=2"),
                ("script=1", "script=10"),
                ("script=1", "script=-1"),
                ("vars=", "vars=1"),
                ("vars=", "var="),
                ("rows=", "rows=1"),
                ("rows=", "row="),
                ("rows=", "rows=-"),
                ("range=", "range= "),
                ("row=", "Row="),
                ("row=", "row= "),
                ("row=", "row"),
            ]);
            bytes = text.replacen(old, new, 1).into_bytes();
        }
        15 => {
            let all = lines(&bytes);
            if let Some(line) = (!all.is_empty()).then(|| rng.below(all.len())) {
                let mut all = all;
                let words: [&[u8]; 24] = [
                    b"row=\n", b"row=cue v0\n", b"row=add v0 v0\n", b"row=set v0\n", b"row=while v0 =< 1\n",
                    b"row=for v0 1 <= 2 set 1\n", b"row=for v0 1 <= 2 add 1 \n", b"row=for v0 0 <= 1 add -1\n",
                    b"row=end\n", b"row=else\n", b"row=add v16 0\n", b"row=add v99 -1\n",
                    b"row=hold\n", b"row=hold 0\n", b"row=hold v0 != 0\n", b"row=hold v16\n", b"row=off v0 v0 == 1\n", b"row=off v0 > 1\n",
                    b"row=off v0 v0 > v0\n", b"row=off v0 v0 > 1+1\n", b"row=off v0 v0 > 1000000001\n", b"row=off v0 v0 != -1000000001\n",
                    b"row=off v0 v16 < -1000000000\n", b"row=off v16 v0 <= 1000000001\n",
                ];
                all[line] = rng.one_of(&words).to_vec();
                bytes = all.concat();
            }
        }
        16 => {
            // Another variable, sometimes in a shape of its own.
            if let Some(at) = place_of(rng, &bytes[bytes.len() / 4..], |b| b == b'v') {
                let at = at + bytes.len() / 4 + 1;
                let mut end = at;
                while bytes.get(end).is_some_and(u8::is_ascii_digit) {
                    end += 1;
                }
                let new: &[u8] = rng.one_of(&[
                    &b"16"[..], b"17", b"15", b"99", b"255", b"256", b"257", b"65536", b"4294967296", b"4294967297",
                    b"18446744073709551616", b"18446744073709551617", b"01", b"00", b"-1", b"", b"v0", b"-0",
                    b"340282366920938463463374607431768211456",
                ]);
                bytes.splice(at..end, new.iter().copied());
            }
        }
        17..=19 => {
            // An expression, or what becomes one.
            let byte = rng.one_of(b"+-*()+-*()v0/ ");
            let at = place_of(rng, &bytes, |b| b"+*()".contains(&b)).or_else(|| number_at(rng, &bytes).map(|(_, end)| end));
            match (at.filter(|&at| at < bytes.len()), rng.below(4)) {
                (Some(at), 0) => {
                    bytes.remove(at);
                }
                (Some(at), 1) => bytes[at] = byte,
                (Some(at), 2) => bytes.insert(at + 1, byte),
                (Some(at), _) => bytes.insert(at, byte),
                (None, _) => {}
            }
        }
        _ => {
            // Another number.
            if let Some((start, end)) = number_at(rng, &bytes) {
                let old = bytes[start..end].to_vec();
                let new: Vec<u8> = match rng.below(17) {
                    0 => [b"0", &old[..]].concat(),
                    1 => [b"-", &old[..]].concat(),
                    2 => [b"+", &old[..]].concat(),
                    3 => b"-0".to_vec(),
                    4 => b"0".to_vec(),
                    5 => b"-1".to_vec(),
                    6 => b"1000000001".to_vec(),
                    7 => b"-1000000001".to_vec(),
                    8 => b"10000".to_vec(),
                    9 => b"4294967296".to_vec(),
                    10 => b"4294967297".to_vec(),
                    11 => b"18446744073709551617".to_vec(),
                    12 => vec![b'0' + rng.between(1, 9) as u8; 1 + rng.below(5_000)],
                    13 => [b"-", &vec![b'7'; 1 + rng.below(40)][..]].concat(),
                    14 => rng.between(-20, 300).to_string().into_bytes(),
                    15 => Vec::new(),
                    _ => [&old[..], b"0"].concat(),
                };
                bytes.splice(start..end, new);
            }
        }
    }
    bytes
}
