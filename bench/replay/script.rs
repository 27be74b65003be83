//! Writes a script of 100,000 rows and 1,000,000 finds by key: `script one` on one connection, 256 finds a turn;
//! `script many` on 200 connections, whose peers' bytes come in pieces of 1,400.
use std::io::{BufWriter, Write};

const ROWS: u64 = 100_000;
const FINDS: u64 = 1_000_000;
const TABLE: &[u8] = b"table\ttest\tt\tc\tid\tint\tnot\t\0\tc\tname\tbytes:32\tnull\t\0\tc\tn\tint\tnot\t0\ti\tPRIMARY\tprimary\tid\n";
const OPEN: &[u8] = b"P\t1\ttest\tt\tPRIMARY\tid,name,n\n";

fn push_token(out: &mut Vec<u8>, bytes: &[u8]) {
    for &byte in bytes {
        if byte < 0x10 {
            out.extend_from_slice(&[1, byte + 0x40]);
        } else {
            out.push(byte);
        }
    }
}

fn says(out: &mut impl Write, conn: u64, bytes: &[u8]) {
    let mut line = format!("bytes\t{conn}\t").into_bytes();
    push_token(&mut line, bytes);
    line.push(b'\n');
    out.write_all(&line).unwrap();
}

fn find(at: u64) -> Vec<u8> {
    format!("1\t=\t1\t{}\n", 1 + at * 61_803 % 100_003 % ROWS).into_bytes()
}

fn fill(out: &mut impl Write, conn: u64) {
    let mut piece = OPEN.to_vec();
    for id in 1..=ROWS {
        piece.extend_from_slice(format!("1\t+\t3\t{id}\tuser{id}\t{}\n", id % 10).as_bytes());
        if id % 200 == 0 {
            says(out, conn, &piece);
            writeln!(out, "turn\tw\t{conn}").unwrap();
            piece.clear();
        }
    }
}

fn one(out: &mut impl Write) {
    let mut piece = Vec::new();
    for at in 0..FINDS {
        piece.extend(find(at));
        if at % 256 == 255 || at == FINDS - 1 {
            says(out, 1, &piece);
            writeln!(out, "turn\tw\t1").unwrap();
            piece.clear();
        }
    }
}

fn many(out: &mut impl Write) {
    let mut streams: Vec<Vec<u8>> = vec![OPEN.to_vec(); 200];
    for at in 0..FINDS {
        streams[(at % 200) as usize].extend(find(at));
    }
    for conn in 0..200 {
        writeln!(out, "open\t{}\tr", conn + 2).unwrap();
    }
    let most = streams.iter().map(|s| s.len()).max().unwrap();
    let mut turn = String::from("turn\tr");
    for conn in 0..200 {
        turn.push_str(&format!("\t{}", conn + 2));
    }
    let mut place = 0;
    while place < most {
        for (conn, stream) in streams.iter().enumerate() {
            if place < stream.len() {
                says(out, conn as u64 + 2, &stream[place..stream.len().min(place + 1400)]);
            }
        }
        writeln!(out, "{turn}").unwrap();
        place += 1400;
    }
}

fn main() {
    let mut out = BufWriter::new(std::io::stdout());
    out.write_all(TABLE).unwrap();
    out.write_all(b"open\t1\tw\n").unwrap();
    fill(&mut out, 1);
    match std::env::args().nth(1).as_deref() {
        Some("one") => one(&mut out),
        Some("many") => many(&mut out),
        _ => panic!("script one, or script many"),
    }
}
