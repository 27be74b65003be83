//! The same scripts, answered by a plain program: a map from ids to rows, and a string of output for each connection.
//! It reads the three requests of the measurement and no others.
use std::collections::BTreeMap;
use std::io::{BufRead, BufReader, BufWriter, Write};

#[derive(Default)]
struct Conn {
    held: Vec<u8>,
    out: Vec<u8>,
}

fn unescape(token: &[u8]) -> Vec<u8> {
    let mut bytes = Vec::with_capacity(token.len());
    let mut at = 0;
    while at < token.len() {
        if token[at] == 1 {
            bytes.push(token[at + 1] - 0x40);
            at += 2;
        } else {
            bytes.push(token[at]);
            at += 1;
        }
    }
    bytes
}

fn push_token(out: &mut Vec<u8>, bytes: &[u8]) {
    for &byte in bytes {
        if byte < 0x10 {
            out.extend_from_slice(&[1, byte + 0x40]);
        } else {
            out.push(byte);
        }
    }
}

fn number<T: std::str::FromStr>(token: &[u8]) -> T
where
    T::Err: std::fmt::Debug,
{
    std::str::from_utf8(token).unwrap().parse().unwrap()
}

fn answer(line: &[u8], rows: &mut BTreeMap<i64, (Vec<u8>, i64)>, out: &mut Vec<u8>) {
    let tokens: Vec<&[u8]> = line.split(|&b| b == b'\t').collect();
    match (tokens[0], tokens[1]) {
        (b"P", _) => out.extend_from_slice(b"0\t1\n"),
        (_, b"+") => {
            rows.insert(number(tokens[3]), (unescape(tokens[4]), number(tokens[5])));
            out.extend_from_slice(b"0\t1\n");
        }
        _ => {
            out.extend_from_slice(b"0\t3");
            let id: i64 = number(tokens[3]);
            if let Some((name, n)) = rows.get(&id) {
                write!(out, "\t{id}\t").unwrap();
                push_token(out, name);
                write!(out, "\t{n}").unwrap();
            }
            out.push(b'\n');
        }
    }
}

fn turn(conn: &mut Conn, rows: &mut BTreeMap<i64, (Vec<u8>, i64)>) {
    let held = std::mem::take(&mut conn.held);
    let mut rest = held.as_slice();
    while let Some(len) = rest.iter().position(|&b| b == b'\n') {
        answer(&rest[..len], rows, &mut conn.out);
        rest = &rest[len + 1..];
    }
    conn.held = rest.to_vec();
}

fn main() {
    let mut input = BufReader::new(std::io::stdin());
    let mut output = BufWriter::new(std::io::stdout());
    let mut rows = BTreeMap::new();
    let mut conns: BTreeMap<u32, Conn> = BTreeMap::new();
    let mut line = Vec::new();
    let mut text = Vec::new();
    while input.read_until(b'\n', &mut line).unwrap() > 0 {
        line.pop();
        let tokens: Vec<&[u8]> = line.split(|&b| b == b'\t').collect();
        match tokens[0] {
            b"open" => {
                conns.insert(number(tokens[1]), Conn::default());
            }
            b"bytes" => {
                let piece = unescape(tokens[2]);
                conns.get_mut(&number(tokens[1])).unwrap().held.extend_from_slice(&piece);
            }
            b"turn" => {
                text.clear();
                for token in &tokens[2..] {
                    let conn = conns.get_mut(&number(token)).unwrap();
                    turn(conn, &mut rows);
                    text.extend_from_slice(b"sent\t");
                    text.extend_from_slice(token);
                    text.push(b'\t');
                    push_token(&mut text, &conn.out);
                    text.push(b'\n');
                    conn.out.clear();
                }
                output.write_all(&text).unwrap();
                output.flush().unwrap();
            }
            _ => {}
        }
        line.clear();
    }
}
