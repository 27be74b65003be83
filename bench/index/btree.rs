//! The same work on the standard library's BTreeMap, told in the same lines.
use std::collections::BTreeMap;
use std::ops::Bound;
use std::time::Instant;

const COUNT: u32 = 100_000;

fn key_at(order: &str, i: u32) -> u64 {
    match order {
        "ascending" => i as u64,
        "descending" => (COUNT - i) as u64,
        _ => i as u64 * 61_803 % 100_003,
    }
}

fn fill(order: &str) -> BTreeMap<u64, u32> {
    let mut tree = BTreeMap::new();
    for i in 0..COUNT {
        let key = key_at(order, i);
        if !tree.contains_key(&key) {
            tree.insert(key, i);
        }
    }
    tree
}

fn look_up(tree: &BTreeMap<u64, u32>, order: &str) -> u32 {
    let mut sum = 0u32;
    for i in 0..COUNT {
        let low = Bound::Included(key_at(order, i));
        if let Some((_, slot)) = tree.range((low, Bound::Unbounded)).next() {
            sum = sum.wrapping_add(*slot);
        }
    }
    sum
}

fn main() {
    for order in ["ascending", "descending", "shuffled"] {
        let start = Instant::now();
        let tree = fill(order);
        println!("insert-{order} {} {}", tree.len(), start.elapsed().as_nanos());
        let start = Instant::now();
        let sum = look_up(&tree, order);
        println!("look-up-{order} {sum} {}", start.elapsed().as_nanos());
        let start = Instant::now();
        let sum = tree.values().fold(0u32, |sum, slot| sum.wrapping_add(*slot));
        println!("step-up-{order} {sum} {}", start.elapsed().as_nanos());
        let start = Instant::now();
        let sum = tree.values().rev().fold(0u32, |sum, slot| sum.wrapping_add(*slot));
        println!("step-down-{order} {sum} {}", start.elapsed().as_nanos());
    }
}
