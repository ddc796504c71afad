//! The independent board against the logbook, which goes tick by tick and shares nothing with it
//! but the figures behind the code of a voltage: the checker's own check.

use checker::board::analog::Answer;
use checker::board::call::{Call, Calls, Step};
use checker::board::logbook::{Event, Logbook};
use checker::board::{Board, LONGEST_ADVANCE};
use checker::cases::script::steps;
use checker::draw::generator::scenes;
use checker::draw::random::{seed_or, Random};
use checker::judge::before_arming::{self, Arming};
use checker::judge::coverage::Coverage;

const LISTS: u32 = 10_000;

/// Board and logbook side by side.
struct Pair {
    board: Board,
    logbook: Logbook,
}

impl Pair {
    fn new(range: u32) -> Pair {
        Pair {
            board: Board::new(range).0,
            logbook: Logbook::new(range),
        }
    }

    /// The same answer from both, and a board that a refused call leaves as it was.
    fn call(&mut self, call: &Call, name: &str) -> Answer {
        let before = self.board.clone();
        let answer = self.board.call(call);
        let expected = self.logbook.call(call);
        assert_eq!(answer, expected, "{name}, {call}: board (left), logbook");
        if answer.number != 0 {
            assert_eq!(self.board, before, "{name}, {call}: refused");
        }
        assert_eq!(
            self.board.is_idle(),
            self.logbook.is_idle(),
            "{name}, {call}: idle"
        );
        answer
    }

    /// Everything that can be read, without changing either of the two.
    fn compare_all(&self, name: &str) {
        let mut pair = Pair {
            board: self.board.clone(),
            logbook: self.logbook.clone(),
        };
        for slot in 0..32 {
            pair.call(&Call::Look { slot }, name);
        }
        for offset in (0..256).step_by(4) {
            pair.call(&Call::Read { width: 16, offset }, name);
        }
    }
}

#[test]
fn drawn_lists_of_calls() {
    let seed = seed_or(64);
    let mut random = Random::new(seed);
    let (mut calls, mut stores, mut refused) = (0, 0, 0);
    let arming_kinds = before_arming::kinds(200, |noted: &before_arming::Noted| Some(noted));
    let mut coverage = Coverage::new(arming_kinds.collect());
    for index in 0..LISTS {
        let range = random.below(4);
        let own = Random::new(random.bits());
        let longest = random.pick(&[500, 2_000, 2_000, 8_000]);
        let list = scenes(own, range, longest, 1 + random.below(5));
        let (mut pair, mut arming) = (Pair::new(range), Arming::default());
        for (position, call) in list.iter().enumerate() {
            let name = format!("seed {seed}, list {index}, call {}", position + 1);
            let before = pair.board.clone();
            let answer = pair.call(call, &name);
            let noted = arming.note(Step::of(call), answer, &before, &pair.board);
            coverage.note(&noted);
            if position % 16 == 0 || noted.arms() {
                pair.compare_all(&name);
            }
        }
        calls += list.len();
        stores += stores_of(&pair.logbook);
        refused += refused_of(range, &list);
    }
    println!(
        "{LISTS} lists drawn from seed {seed}: {calls} calls, {refused} refused, {stores} stores"
    );
    println!("{}", coverage.table());
    assert!(calls > 800_000 && refused > 30_000 && stores > 200_000);
    coverage.assert_all_met();
}

fn stores_of(logbook: &Logbook) -> usize {
    let is_store = |event: &&Event| matches!(event, Event::Store { .. });
    logbook.events.iter().filter(is_store).count()
}

fn refused_of(range: u32, list: &[Call]) -> usize {
    let mut board = Board::new(range).0;
    list.iter()
        .filter(|call| board.call(call).number != 0)
        .count()
}

/// When the next store comes, by advances of a copy of the board and, if it is near, tick by tick.
#[test]
fn next_stores() {
    let seed = seed_or(120);
    let mut random = Random::new(seed);
    let (mut none, mut near, mut far) = (0, 0, 0);
    for index in 0..2_000 {
        let range = random.below(4);
        let own = Random::new(random.bits());
        let list = scenes(own, range, 2_000, 2);
        let mut pair = Pair::new(range);
        for (position, call) in list.iter().enumerate() {
            pair.board.call(call);
            pair.logbook.call(call);
            let name = format!("seed {seed}, list {index}, call {}", position + 1);
            match check_next_store(&pair, &name) {
                0 => none += 1,
                1..=NEAR => near += 1,
                _ => far += 1,
            }
        }
    }
    println!("next store: {none} times none, {near} times near, {far} times far");
    assert!(none > 20_000 && near > 20_000 && far > 2_000);
}

/// So many ticks are tried one by one.
const NEAR: u32 = 500;

fn check_next_store(pair: &Pair, name: &str) -> u32 {
    let next = pair.board.next_store();
    let tries = match next {
        0 => vec![(LONGEST_ADVANCE, 0), (NEAR, 0)],
        _ => vec![(next - 1, 0), (next, 1)],
    };
    for (ticks, stores) in tries {
        let found = pair.board.clone().advance(ticks).value;
        assert_eq!(found, stores, "{name}: board, next {next}, advance {ticks}");
        if ticks <= NEAR {
            let found = pair.logbook.clone().call(&Call::Advance { ticks }).value;
            assert_eq!(
                found, stores,
                "{name}: logbook, next {next}, advance {ticks}"
            );
        }
    }
    next
}

/// Cycles of more than 65,536 conversions, on three channels so that passes and powers of two part.
#[test]
fn long_cycles() {
    let starts = [
        "write 16 04H 1901H; write 16 08H 4000H; write 16 0CH 1; write 16 24H 1",
        "write 16 04H 2908H; write 16 08H 4100H; write 16 0CH 1; write 16 24H 1",
        "write 16 04H 2300H; write 16 24H 1",
        "write 16 04H 1B01H; write 16 08H 4000H; write 16 0CH 1; write 16 24H 1",
    ];
    for start in starts {
        let mut pair = Pair::new(1);
        let script = format!("write 16 10H 0402H; {start}; input 3 1,000,000");
        let more =
            "advance 16,777,216; input 3 -1; read 16 8CH; advance 63; read 16 D0H; advance 190";
        for step in steps(&script).into_iter().chain(steps(more)) {
            pair.call(&step.call, start);
        }
        assert!(stores_of(&pair.logbook) > 100_000);
        pair.compare_all(start);
    }
}

/// A board that is idle, one that scans, one that is armed and one that a trigger armed, with all bits set up.
fn starting_points() -> Vec<Pair> {
    let scripts = [
        "write 16 04H 1401H",
        "write 16 00H 1; write 16 04H 1309H; write 16 24H 1; advance 184 = 2",
        "write 16 04H 2503H; write 16 24H 1; trigger; advance 64; trigger",
        "write 16 04H 2502H; trigger; advance 64; trigger; advance 64",
    ];
    let pair_of = |script: &&str| {
        let mut pair = Pair::new(1);
        for step in steps(script) {
            pair.call(&step.call, script);
        }
        pair
    };
    scripts.iter().map(pair_of).collect()
}

/// Every width and every offset a little beyond the map, in both directions.
#[test]
fn every_width_and_offset() {
    for start in starting_points() {
        for width in 0..=255 {
            for offset in 0..270 {
                let mut pair = Pair {
                    board: start.board.clone(),
                    logbook: start.logbook.clone(),
                };
                pair.call(&Call::Read { width, offset }, "");
                for value in [0, 1, 0xFF, 0x100] {
                    let write = Call::Write {
                        width,
                        offset,
                        value,
                    };
                    pair.call(&write, "");
                }
            }
        }
    }
}

/// A look and a clear of every slot, and of those that there are not.
#[test]
fn every_slot() {
    for start in starting_points() {
        for slot in 0..=255 {
            let mut pair = Pair {
                board: start.board.clone(),
                logbook: start.logbook.clone(),
            };
            pair.call(&Call::Look { slot }, "");
            pair.call(&Call::Clear { slot }, "");
            pair.compare_all(&format!("clear {slot}"));
        }
    }
}

/// Every word written to Interrupt, Control, channels and Start Convert, whole and by bytes, and then a
/// trigger.
#[test]
fn every_word_of_the_registers_that_are_asked() {
    for start in starting_points() {
        for word in 0..=0xFFFF {
            for offset in [0x00, 0x04, 0x10, 0x24] {
                write_and_read_back(&start, 16, offset, word);
            }
        }
        for (offset, byte) in (0x00..0x28).flat_map(|o| (0..=0xFF).map(move |b| (o, b))) {
            write_and_read_back(&start, 8, offset, byte);
        }
    }
}

fn write_and_read_back(start: &Pair, width: u8, offset: u16, value: u32) {
    let mut pair = Pair {
        board: start.board.clone(),
        logbook: start.logbook.clone(),
    };
    let write = Call::Write {
        width,
        offset,
        value,
    };
    pair.call(&write, "");
    let name = write.to_string();
    let reads = [0x00, 0x04, 0x10, 0x14, 0x18].map(|offset| Call::Read { width: 16, offset });
    // And what a trigger then does.
    let looks = [0, 16].map(|slot| Call::Look { slot });
    let trigger = [Call::Trigger];
    for call in reads.iter().chain(&trigger).chain(&reads).chain(&looks) {
        pair.call(call, &name);
    }
}

/// A range of 0 to 3 opens both anew, whatever runs on them; any other is refused with 14 and leaves both.
#[test]
fn opened_in_place() {
    let answer = |number| Answer { number, value: 0 };
    let mut pair = Pair::new(1);
    for step in steps("input 0 5,000,000; write 16 04H 0309H; write 16 24H 1; advance 184 = 2") {
        assert_eq!(pair.call(&step.call, "before an opening"), step.expected);
    }
    for range in [4, 5, 255, 256, u32::MAX] {
        let (mut board, mut logbook) = (pair.board.clone(), pair.logbook.clone());
        assert_eq!(board.open(range), answer(14), "range {range}");
        assert_eq!(logbook.open(range), answer(14), "range {range}");
        assert!(board == pair.board && logbook == pair.logbook);
    }
    for range in 0..=3 {
        let (mut board, mut logbook) = (pair.board.clone(), pair.logbook.clone());
        assert_eq!(board.open(range), answer(0), "range {range}");
        assert_eq!(logbook.open(range), answer(0), "range {range}");
        assert_eq!(board, Board::new(range).0);
        assert_eq!(logbook, Logbook::new(range));
    }
}
