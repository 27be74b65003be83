//! The plain program that `decode_shared` is measured against: one loop over the bytes of each line.
//!
//! It is run twice: with texts that borrow from the line, the least work that any decoder can do, and with texts of
//! their own, as a decoder without shared buffers makes them.

use std::borrow::Cow;
use std::hint::black_box;
use std::time::Instant;

enum Token<'a> {
    Null,
    Text(Cow<'a, [u8]>),
}

fn decode(line: &[u8], owned: bool) -> Result<Vec<Token<'_>>, usize> {
    let mut tokens = Vec::new();
    let mut start = 0;
    let mut decoded: Option<Vec<u8>> = None;
    let mut i = 0;
    loop {
        if i == line.len() || line[i] == 0x09 {
            let text = match decoded.take() {
                Some(text) => Cow::Owned(text),
                None if owned => Cow::Owned(line[start..i].to_vec()),
                None => Cow::Borrowed(&line[start..i]),
            };
            tokens.push(if *text == [0] && line[start] == 0 { Token::Null } else { Token::Text(text) });
            if i == line.len() {
                return Ok(tokens);
            }
            start = i + 1;
        } else if line[i] == 0x01 {
            let second = *line.get(i + 1).ok_or(i)?;
            if !(0x40..0x50).contains(&second) {
                return Err(i);
            }
            decoded.get_or_insert_with(|| line[start..i].to_vec()).push(second - 0x40);
            i += 1;
        } else if line[i] == 0x00 {
            let ends = i + 1 == line.len() || line[i + 1] == 0x09;
            if i != start || !ends {
                return Err(i);
            }
        } else if line[i] < 0x10 {
            return Err(i);
        } else if let Some(text) = &mut decoded {
            text.push(line[i]);
        }
        i += 1;
    }
}

fn best(line: &[u8], owned: bool) -> u128 {
    let mut least = u128::MAX;
    for _ in 0..ROUNDS {
        let start = Instant::now();
        let mut count = 0;
        for _ in 0..LINES {
            let tokens = decode(black_box(line), owned).expect("a line of tokens");
            count += black_box(&tokens)
                .iter()
                .filter(|token| matches!(token, Token::Text(text) if text.len() < 65536))
                .count();
        }
        assert_eq!(count, LINES * TEXTS);
        least = least.min(start.elapsed().as_nanos());
    }
    least
}

const ROUNDS: usize = 7;
const LINES: usize = 100_000;
const TEXTS: usize = 9;

fn main() {
    let line = std::fs::read("line").expect("the file `line`");
    println!("{} {}", best(&line, false), best(&line, true));
}
