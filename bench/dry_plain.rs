// What `ledger dry SCRIPT` prints, as plain Rust without proofs: the yardstick of dry.sh.
// It is written to be fast: one look for a bad line, one pass over the bytes, one table, one output buffer.
use std::io::{self, Read};
use std::process::exit;

mod plain;

use plain::messages::*;

const TOP: usize = 8819;

fn first_bad_line(script: &[u8]) -> Option<usize> {
    if !script.contains(&b'@') {
        return None;
    }
    let bad = |at: usize| script[at] == b'@' && (at == 0 || script[at - 1] == b'\n');
    let at = (0..script.len()).find(|&at| bad(at))?;
    Some(script[..at].iter().filter(|&&byte| byte == b'\n').count() + 1)
}

fn main() {
    let path = std::env::args().nth(1).expect("a script");
    let mut script = Vec::new();
    let read = if path == "/dev/stdin" {
        io::stdin().lock().read_to_end(&mut script).map(drop)
    } else {
        std::fs::read(&path).map(|bytes| script = bytes)
    };
    if read.is_err() {
        eprintln!("FILE");
        exit(3);
    }
    if let Some(line) = first_bad_line(&script) {
        eprintln!("SCRIPT LINE {line}");
        exit(1);
    }
    let script = script.as_slice();
    let mut cards = [None; TOP];
    let mut tills = Tills::new();
    let mut out = Out { inner: io::stdout().lock(), buffer: [0; ROOM], used: 0 };
    let mut at = 0;
    while at < script.len() {
        if out.used > ROOM - 64 {
            out.flush();
        }
        let Some((till, number, body, end)) = request(script, at) else {
            out.text(SYNTAX);
            at = next_line(script, at);
            continue;
        };
        at = end;
        out.number(till as u32);
        out.text(b",");
        out.number(number);
        out.text(b",");
        match tills.old(till, number, body) {
            Some(old) => tell_old(&mut out, old),
            None => {
                let answer = trade(&mut cards, TOP, body);
                tills.add(till, Kept { number, body, answer });
                tell(&mut out, answer);
            }
        }
        out.text(b"\n");
    }
    out.flush();
}
