//! Damage to words and to bytes.

use cases::rng::Rng;
use ordinary::layout::{REGION_BYTES, REGION_WORDS, REQUEST_BYTES};

use crate::random::number;

/// Changes one word, or copies one stretch as long as a record over another.
pub fn damage_words(rng: &mut Rng, words: &mut [u64]) {
    let at = word_to_damage(rng, words);
    match rng.below(6) {
        0 => words[at] ^= 1 << rng.below(64),
        1 => words[at] = words[at].wrapping_add(1),
        2 => words[at] = words[at].wrapping_sub(1),
        3 => words[at] = *rng.pick(words),
        4 => copy_record(rng, words),
        _ => words[at] = number(rng),
    }
}

/// One of the words that are not zero, or any.
fn word_to_damage(rng: &mut Rng, words: &[u64]) -> usize {
    let used: Vec<usize> = (0..words.len()).filter(|&at| words[at] != 0).collect();
    if used.is_empty() || rng.one_in(3) {
        return rng.below(words.len());
    }
    *rng.pick(&used)
}

fn copy_record(rng: &mut Rng, words: &mut [u64]) {
    let last = words.len() - REGION_WORDS;
    let from = rng.below(last + 1);
    let to = rng.below(last + 1);
    words.copy_within(from..from + REGION_WORDS, to);
}

/// Damages a plan in one to three places.
pub fn damage_bytes(rng: &mut Rng, plan: &mut Vec<u8>) {
    for _ in 0..1 + rng.below(3) {
        damage_once(rng, plan);
    }
}

fn damage_once(rng: &mut Rng, plan: &mut Vec<u8>) {
    if plan.len() < 8 {
        return extend(rng, plan);
    }
    match rng.below(8) {
        0 | 1 => flip_bit(rng, plan),
        2 => plan.truncate(rng.below(plan.len())),
        3 => extend(rng, plan),
        4 => swap_fields(rng, plan),
        5 => cut_out(rng, plan),
        _ => overwrite_field(rng, plan),
    }
}

fn flip_bit(rng: &mut Rng, plan: &mut [u8]) {
    let at = rng.below(plan.len());
    plan[at] ^= 1 << rng.below(8);
}

fn extend(rng: &mut Rng, plan: &mut Vec<u8>) {
    let more = 1 + rng.below(40);
    let byte = rng.word() as u8;
    plan.resize(plan.len() + more, byte);
}

/// The start of a field of four bytes, in a plan that has one.
fn field(rng: &mut Rng, plan: &[u8]) -> usize {
    4 * rng.below(plan.len() / 4)
}

fn swap_fields(rng: &mut Rng, plan: &mut [u8]) {
    let (one, other) = (field(rng, plan), field(rng, plan));
    for at in 0..4 {
        plan.swap(one + at, other + at);
    }
}

fn overwrite_field(rng: &mut Rng, plan: &mut [u8]) {
    let at = field(rng, plan);
    let number = number(rng) as u32;
    plan[at..at + 4].copy_from_slice(&number.to_le_bytes());
}

fn cut_out(rng: &mut Rng, plan: &mut Vec<u8>) {
    let start = field(rng, plan);
    let end = plan.len().min(start + *rng.pick(&[1, 4, REGION_BYTES, REQUEST_BYTES]));
    plan.drain(start..end);
}
