//! An old box, read from end to end: an image of RAID level 4 that is laid out here byte by byte, and the library told so. Neither the
//! plain engine nor its placement has a part in it.
use harness::calls::{Answer, Calls, Lent, Record, State, Tested};

/// What an old box is: N cards of S blocks of B bytes, and its logical blocks in their order.
#[derive(Clone)]
struct OldBox {
    cards: usize,
    stripes: usize,
    block: usize,
    blocks: Vec<Vec<u8>>,
}

impl OldBox {
    /// A box in which no two blocks are alike, and no two bytes of a block that stand side by side.
    fn new(cards: usize, stripes: usize, block: usize) -> OldBox {
        let bytes = |number: usize| {
            (0..block).map(|at| (number * 89 + at * 7 + number / 3 * at + 5) as u8).collect()
        };
        let blocks = (0..(cards - 1) * stripes).map(bytes).collect();
        OldBox { cards, stripes, block, blocks }
    }

    /// The image: card 0's blocks by stripe, then card 1's, and so on. Unit i of a stripe is on card i, its parity on the last card.
    fn image(&self) -> Vec<u8> {
        let n = self.cards - 1;
        let mut image = Vec::new();
        for card in 0..n {
            for stripe in 0..self.stripes {
                image.extend_from_slice(&self.blocks[stripe * n + card]);
            }
        }
        for stripe in 0..self.stripes {
            for at in 0..self.block {
                let units = (0..n).map(|unit| self.blocks[stripe * n + unit][at]);
                image.push(units.fold(0, |sum, byte| sum ^ byte));
            }
        }
        image
    }

    /// Where a card's bytes stand in the image.
    fn card(&self, card: usize) -> std::ops::Range<usize> {
        let size = self.stripes * self.block;
        card * size..(card + 1) * size
    }
}

/// Boxes of every N: one stripe, fewer than there are cards, as many, and more.
fn boxes() -> impl Iterator<Item = OldBox> {
    (3..=8).flat_map(|cards| {
        [(1, 16), (2, 48), (cards, 16), (2 * cards + 3, 32)]
            .map(|(stripes, block)| OldBox::new(cards, stripes, block))
    })
}

/// The library with a box in it.
struct Reader {
    state: State,
    table: Vec<Record>,
    work: Vec<u8>,
    image: Vec<u8>,
}

impl Reader {
    /// Opens an image of a box's size in a layout, with this card out or none (255).
    fn open(size: &OldBox, image: Vec<u8>, layout: u64, out: u64) -> Reader {
        let (cards, stripes, block) = (size.cards as u64, size.stripes as u64, size.block as u64);
        let mut reader = Reader {
            state: State::default(),
            table: vec![Record::default(); 2],
            work: vec![0; 2 * 2 * size.cards * size.block],
            image,
        };
        let asked = State { cards, stripes, block, records: 2, layout, out, lost: 0, fill: 65_535 };
        assert_eq!(Tested.open(&mut reader.lent(), &asked), 0, "the box opens");
        assert_eq!(reader.state, asked);
        reader
    }

    fn lent(&mut self) -> Lent<'_> {
        let Reader { state, table, work, image } = self;
        Lent { state, table, work, image }
    }

    /// A request from admission to collection, its steps in any order that works; what it read.
    fn request(&mut self, write: u64, stripe: u64, mask: u64, payload: &[u8]) -> Vec<u8> {
        let admitted = Answer::of(Tested.admit(&mut self.lent(), write, stripe, mask, payload));
        assert_eq!(admitted.number, 0, "the request is admitted");
        let record = admitted.first;
        while self.table[record as usize].phase == 1 {
            let last = 2 * self.state.cards;
            let taken = (0..=last)
                .any(|step| Answer::of(Tested.step(&mut self.lent(), record, step)).number == 0);
            assert!(taken, "an open request has a step to take");
        }
        let length = if write == 0 { mask.count_ones() as u64 * self.state.block } else { 0 };
        let mut result = vec![0; length as usize];
        let collected = Answer::of(Tested.collect(&mut self.lent(), record, &mut result));
        assert_eq!(collected.number, 0, "the request is collected");
        result
    }

    /// Reads logical block L, which is unit L mod n of stripe L div n.
    fn read(&mut self, block: usize) -> Vec<u8> {
        let n = self.state.cards - 1;
        self.request(0, block as u64 / n, 1 << (block as u64 % n), &[])
    }

    /// Writes logical block L.
    fn write(&mut self, block: usize, bytes: &[u8]) {
        let n = self.state.cards - 1;
        self.request(1, block as u64 / n, 1 << (block as u64 % n), bytes);
    }

    /// Every block is read as the box has it, singly and a stripe at a time.
    fn reads_all(&mut self, old: &OldBox) {
        for (block, right) in old.blocks.iter().enumerate() {
            assert_eq!(&self.read(block), right, "block {block} of {:?}", self.state);
        }
        let n = old.cards - 1;
        for (stripe, right) in old.blocks.chunks(n).enumerate() {
            let units = self.request(0, stripe as u64, (1 << n) - 1, &[]);
            assert_eq!(units, right.concat(), "stripe {stripe} of {:?}", self.state);
        }
    }

    /// Reports a card, whose bytes turn to noise.
    fn fail(&mut self, old: &OldBox, card: usize) {
        assert_eq!(Tested.report(&mut self.state, card as u64), 0, "card {card} is reported");
        noise(&mut self.image[old.card(card)]);
    }

    /// Fills the card that is out to the end.
    fn fill(&mut self) {
        assert_eq!(Tested.start(&mut self.state), 0, "a fill is begun");
        for stripe in 0..self.state.stripes {
            let answer = Tested.rebuild(&mut self.state, &self.table, &mut self.image);
            assert_eq!(Answer::of(answer), Answer::accepted(stripe, 0));
        }
        assert_eq!((self.state.out, self.state.layout), (255, 4));
    }
}

/// What a card that is out may hold.
fn noise(bytes: &mut [u8]) {
    for (at, byte) in bytes.iter_mut().enumerate() {
        *byte = byte.wrapping_mul(3) ^ (at * 31 + 0x5A) as u8;
    }
}

/// Three cards and two stripes, written out: blocks 0 to 3 are filled with 10, 01, 12, 04.
#[test]
fn a_box_written_out() {
    let old = OldBox {
        cards: 3,
        stripes: 2,
        block: 16,
        blocks: [0x10, 0x01, 0x12, 0x04].map(|byte| vec![byte; 16]).to_vec(),
    };
    let cards = [[0x10, 0x12], [0x01, 0x04], [0x11, 0x16]];
    let image = cards.concat().into_iter().flat_map(|byte| [byte; 16]).collect::<Vec<u8>>();
    assert_eq!(old.image(), image);
    Reader::open(&old, image.clone(), 4, 255).reads_all(&old);
    for out in 0..3 {
        let mut spoilt = image.clone();
        spoilt[old.card(out)].fill(0xDD);
        Reader::open(&old, spoilt, 4, out as u64).reads_all(&old);
    }
}

#[test]
fn every_block_is_read_back() {
    for old in boxes() {
        let image = old.image();
        let mut reader = Reader::open(&old, image.clone(), 4, 255);
        reader.reads_all(&old);
        assert_eq!(reader.image, image, "reading alters no card");
        assert_eq!(Tested.scan(&reader.state, &reader.image), 0);
        assert_eq!(Tested.check(&reader.state, &reader.table, &reader.image), 0);
    }
}

#[test]
fn every_block_is_read_back_with_each_card_out() {
    for old in boxes() {
        for out in 0..old.cards {
            let mut image = old.image();
            noise(&mut image[old.card(out)]);
            let mut reader = Reader::open(&old, image.clone(), 4, out as u64);
            reader.reads_all(&old);
            assert_eq!(reader.image, image, "reading alters no card");
        }
    }
}

/// Each card dies in its turn and is filled; every time the box is to the byte what it was.
#[test]
fn each_card_dies_and_is_filled() {
    for old in boxes() {
        let mut reader = Reader::open(&old, old.image(), 4, 255);
        for card in 0..old.cards {
            reader.fail(&old, card);
            reader.reads_all(&old);
            reader.fill();
            assert_eq!(reader.image, old.image(), "card {card} of {:?}", reader.state);
        }
    }
}

/// Blocks are written with each card out and with none: then the cards hold a box laid out anew, but for the one that is out.
#[test]
fn writes_keep_the_old_layout() {
    for old in boxes() {
        for out in (0..old.cards).map(Some).chain([None]) {
            let mut reader = Reader::open(&old, old.image(), 4, 255);
            let mut new = old.clone();
            if let Some(card) = out {
                reader.fail(&old, card);
            }
            let kept = out.map(|card| reader.image[old.card(card)].to_vec());
            for block in (0..old.blocks.len()).filter(|block| block % 5 != 2) {
                let bytes: Vec<u8> = (0..old.block).map(|at| (block * 57 + at * 3) as u8).collect();
                reader.write(block, &bytes);
                new.blocks[block] = bytes;
            }
            let mut right = new.image();
            if let (Some(card), Some(kept)) = (out, kept) {
                right[old.card(card)].copy_from_slice(&kept);
            }
            assert_eq!(reader.image, right, "{:?}", reader.state);
            reader.reads_all(&new);
            if out.is_some() {
                reader.fill();
                assert_eq!(reader.image, new.image(), "{:?}", reader.state);
            }
        }
    }
}

/// No byte tells the layouts apart, so an old box opens in layout 5 as well. Block L is then what card L mod N holds in stripe L div n,
/// which is another one wherever the layouts differ.
#[test]
fn an_old_box_taken_for_a_new_one() {
    for old in boxes() {
        let image = old.image();
        let mut reader = Reader::open(&old, image.clone(), 5, 255);
        let (mut met, n) = (0, old.cards - 1);
        for (block, right) in old.blocks.iter().enumerate() {
            let (card, stripe) = (block % old.cards, block / n);
            let start = old.card(card).start + stripe * old.block;
            let read = reader.read(block);
            assert_eq!(
                read,
                image[start..start + old.block],
                "block {block} of {:?}",
                reader.state
            );
            met += (read == *right) as usize;
        }
        assert_eq!(met < old.blocks.len(), old.stripes > 1, "{:?}", reader.state);
    }
}
