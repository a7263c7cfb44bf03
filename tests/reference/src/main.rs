//! reference report < FILE
//! reference rehearse [prices=A,C,P,T] FILE ALLOWANCE PICKS [VALUE ..]
//! reference frames [prices=A,C,P,T] Q FILE PICKS VALUES ..
//! reference season < NAMES

use reference::{desk, plan, report_text, sheet, ONES, SCRATCH};
use std::ffi::OsStr;
use std::io::{Read, Write};
use std::os::unix::ffi::OsStrExt;
use std::process::ExitCode;

fn main() -> ExitCode {
    let arguments: Vec<String> = std::env::args_os().skip(1).map(|a| a.to_string_lossy().into_owned()).collect();
    let words: Vec<&str> = arguments.iter().map(String::as_str).collect();
    let answer = match words[..] {
        ["report"] => input().map(|file| plan(&file, &ONES, SCRATCH).map_or_else(desk::refused, |plan| report_text(&plan))),
        ["frames", ref words @ ..] => desk::frames(words, |name| std::fs::read(name).ok()),
        ["season"] => input().map(|names| sheet::season(&names, |name| std::fs::read(OsStr::from_bytes(name)).ok())),
        ["rehearse", ref words @ ..] if words.len() > 2 => desk::rehearse(words, |name| std::fs::read(name).ok()),
        _ => Err("use: reference report < FILE | reference rehearse [prices=A,C,P,T] FILE ALLOWANCE PICKS [VALUE ..] | \
             reference frames [prices=A,C,P,T] Q FILE PICKS VALUES .. | reference season < NAMES"
            .into()),
    };
    let (text, code) = match answer {
        Ok(text) => (text, ExitCode::SUCCESS),
        Err(what) => (format!("error={what}\n").into_bytes(), ExitCode::from(2)),
    };
    match std::io::stdout().write_all(&text) {
        Ok(()) => code,
        Err(_) => ExitCode::from(2),
    }
}

fn input() -> Result<Vec<u8>, String> {
    let mut bytes = Vec::new();
    std::io::stdin().read_to_end(&mut bytes).map_err(|_| "standard input cannot be read".to_string())?;
    Ok(bytes)
}
