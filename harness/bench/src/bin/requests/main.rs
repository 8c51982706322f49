//! Requests a second: the library through its C calls, and the plain engine.
//!
//! A request is an admission, all its steps in ascending order, and its collection. The last column
//! is the part of the library's time in which no byte is copied or summed: what remains when the
//! time of the bare copies and sums of the same request is taken away.
//!
//! Run it alone on the machine. It decides nothing: it prints a table, which docs/PERFORMANCE.md keeps. With the words of a row and a layout
//! (`requests "small write" 8 512 5`) it makes that request on every stripe once, by the library alone, and prints how many calls it made,
//! for `instructions` to count.

mod moves;

use harness::calls::{pack, Answer, Calls, Lent, Plain, Record, State, Tested};
use harness::plain::blocks::make_right;
use harness::plain::graph::{members, Plan};
use harness::plain::placement::card_at;
use harness::plain::LEVEL_5;
use harness::random::Random;
use std::time::{Duration, Instant};

const STRIPES: u64 = 64;
const RECORDS: u64 = 4;

/// One kind of request.
pub struct Task {
    name: &'static str,
    cards: u64,
    block: u64,
    layout: u64,
    write: bool,
    /// How many units, from unit 0 on.
    units: u64,
    /// The position whose card is out.
    out: Option<u64>,
    graph: u64,
}

fn tasks(cards: u64, block: u64, layout: u64) -> [Task; 4] {
    let all = cards - 1;
    let half = all.div_ceil(2);
    let task = |name, write, units, out, graph| Task {
        name,
        cards,
        block,
        layout,
        write,
        units,
        out,
        graph,
    };
    [
        task("small write", true, 1, None, 3),
        task("reconstruct write", true, half, None, 4),
        task("large write", true, all, None, 5),
        task("degraded read", false, 1, Some(0), 2),
    ]
}

/// An open array, and a request that is made again and again on one stripe after another.
pub struct Bench {
    state: State,
    table: Vec<Record>,
    work: Vec<u8>,
    image: Vec<u8>,
    payload: Vec<u8>,
    result: Vec<u8>,
    mask: u64,
    plan: Plan,
    steps: Vec<u64>,
    stripes: Vec<u64>,
}

impl Bench {
    fn new(task: &Task) -> Bench {
        let Task { cards, block, layout, .. } = *task;
        let whole = State { records: RECORDS, layout, ..State::whole(cards, STRIPES, block) };
        let out = task.out.map_or(255, |position| card_at(&whole, 0, position));
        let state = State { out, ..whole };
        let mut random = Random::new(cards);
        let mut image = random.bytes(state.image_length() as usize);
        make_right(&state, &mut image);
        let mask = (1 << task.units) - 1;
        let plan = Plan::new(state.units(), task.graph, mask, task.out);
        let length = (task.units * block) as usize;
        // A card holds the same position in every N-th stripe.
        let apart = if task.out.is_some() { cards } else { 1 };
        Bench {
            state,
            table: vec![Record::default(); RECORDS as usize],
            work: vec![0; state.work_length() as usize],
            image,
            payload: random.bytes(if task.write { length } else { 0 }),
            result: vec![0; length],
            mask,
            plan,
            steps: members(plan.steps()).collect(),
            stripes: (0..STRIPES).step_by(apart as usize).collect(),
        }
    }

    /// One request from admission to collection; the collection's answer.
    fn request<C: Calls>(&mut self, calls: &C, write: bool, stripe: u64) -> u64 {
        let Bench { state, table, work, image, .. } = self;
        let lent = &mut Lent { state, table, work, image };
        let admitted = calls.admit(lent, write as u64, stripe, self.mask, &self.payload);
        let record = Answer::of(admitted).first;
        for &step in &self.steps {
            calls.step(lent, record, step);
        }
        calls.collect(lent, record, &mut self.result)
    }

    /// The request on every stripe in turn, each collected with the count that it should have.
    fn round<C: Calls>(&mut self, calls: &C, write: bool) {
        let collected = pack(0, self.steps.len() as u64, 0);
        for at in 0..self.stripes.len() {
            let answer = self.request(calls, write, self.stripes[at]);
            assert_eq!(answer, collected);
        }
    }
}

/// The least time of a request, in seconds, of many rounds.
struct Clock(f64);

impl Clock {
    fn time(&mut self, requests: usize, mut round: impl FnMut()) {
        let start = Instant::now();
        let mut rounds = 0;
        while start.elapsed() < Duration::from_millis(5) {
            round();
            rounds += 1;
        }
        self.0 = self.0.min(start.elapsed().as_secs_f64() / (rounds * requests) as f64);
    }
}

/// Times one task and prints its row.
fn run(task: &Task) {
    let mut bench = Bench::new(task);
    let requests = bench.stripes.len();
    let moves = moves::all(&bench, task);
    let (mut tested, mut plain, mut bare) = (Clock(f64::MAX), Clock(f64::MAX), Clock(f64::MAX));
    // The three take turns, so that a busy moment of the machine hits none of them alone.
    for _ in 0..80 {
        tested.time(requests, || bench.round(&Tested, task.write));
        plain.time(requests, || bench.round(&Plain, task.write));
        bare.time(requests, || moves::carry_out(&mut bench, &moves));
    }
    println!(
        "| {} | {} | {} | {:.0} | {:.0} | {:.2} | {:.0} % |",
        task.name,
        task.cards,
        task.block,
        1.0 / tested.0,
        1.0 / plain.0,
        tested.0 / plain.0,
        100.0 * (1.0 - bare.0 / tested.0).max(0.0),
    );
}

/// One round of a row, by the library; how many calls it made.
fn once(name: &str, [cards, block, layout]: [u64; 3]) -> usize {
    let tasks = tasks(cards, block, layout);
    let task = tasks.iter().find(|task| task.name == name).expect("a request of the table");
    let mut bench = Bench::new(task);
    bench.round(&Tested, task.write);
    bench.stripes.len() * (bench.steps.len() + 2)
}

fn main() {
    let words: Vec<String> = std::env::args().skip(1).collect();
    if let [name, cards, block, layout] = &words[..] {
        let number = |word: &String| word.parse().expect("a number");
        println!("{}", once(name, [number(cards), number(block), number(layout)]));
        return;
    }
    println!("| request | N | B | library, requests/s | plain engine, requests/s | times slower | not bytes |");
    println!("|---|---|---|---|---|---|---|");
    for (cards, block) in [(8, 512), (4, 64)] {
        for task in &tasks(cards, block, LEVEL_5) {
            run(task);
        }
    }
}
