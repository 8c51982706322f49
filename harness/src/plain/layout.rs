//! What the layout program writes: layout 5.
use super::placement::{block_at, Role};
use super::state::LEVEL_5;

/// A number that is written in decimal without leading zeros.
fn number(text: &str) -> Option<u64> {
    let number: u64 = text.parse().ok()?;
    if number.to_string() == text {
        Some(number)
    } else {
        None
    }
}

/// N, one space, S and a newline, and nothing after; both within the limits.
fn asked(input: &[u8]) -> Option<(u64, u64)> {
    let line = std::str::from_utf8(input).ok()?.strip_suffix('\n')?;
    let (cards, stripes) = line.split_once(' ')?;
    let (cards, stripes) = (number(cards)?, number(stripes)?);
    // The first card of the first stripe is there, unless the numbers are beyond the limits.
    block_at(cards, stripes, LEVEL_5, 0, 0).ok().map(|_| (cards, stripes))
}

/// One line for each stripe, ascending: the stripe, then for each card the block number, or P, with single spaces between.
fn line(cards: u64, stripes: u64, stripe: u64) -> String {
    let mut words = vec![stripe.to_string()];
    for card in 0..cards {
        words.push(
            match block_at(cards, stripes, LEVEL_5, card, stripe)
                .expect("a card and stripe of the array")
            {
                Role::Block(block) => block.to_string(),
                Role::Parity => "P".to_string(),
            },
        );
    }
    words.join(" ") + "\n"
}

/// The whole output for an input: the layout, or the one line `bad`.
pub fn output(input: &[u8]) -> String {
    match asked(input) {
        Some((cards, stripes)) => (0..stripes).map(|stripe| line(cards, stripes, stripe)).collect(),
        None => "bad\n".to_string(),
    }
}
