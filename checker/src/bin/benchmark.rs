//! How fast the archive plays, beside the independent program and, if PMC330_OLD_ARCHIVE named one
//! when this was built, beside an older archive: mixed traces, single kinds of calls, a short, a
//! longer and the longest advance in each scan mode, the longest trace, the load, and the same calls
//! stepped one by one; how fast it replays a recording, beside playing it; and how fast it sums over a
//! window, beside a plain loop. Best of several rounds, the players in turn within a round.
//!
//! Run it with `cargo run --release --offline --bin benchmark`; with `-- load`, `-- stepping`,
//! `-- replay` or `-- window` only that part, with `-- load FILE` the trace in that file, and with
//! `-- load FILE SEED` that trace if it is the load of that seed.

use checker::archive::stepped::SteppedBoard;
use checker::archive::{self, Player, OLD_PLAYER};
use checker::board::call::{Call, Calls};
use checker::board::load::{is_load_of, load as independent_load, Loader};
use checker::board::replay::{recording, replay};
use checker::board::trace::{self, answer_of_bytes, decoded, trace_of, trace_of_fields};
use checker::board::window::{plain, Window, LENGTHS};
use checker::board::LONGEST_ADVANCE;
use checker::draw::generator::{hostile, long_advances, middle_advances, short_advances};
use checker::draw::one_kind::{kinds, started, write_16, Kind};
use checker::draw::random::Random;
use checker::judge::digest::fnv_1a;
use std::hint::black_box;
use std::time::Instant;

const ROUNDS: usize = 15;

/// A trace is played again and again in a round until so many calls are made: a short one by itself
/// is too short for the clock.
const CALLS_IN_A_ROUND: usize = 20_000;

struct Load {
    name: &'static str,
    trace: Vec<u8>,
    calls: usize,
    advances: usize,
    /// What the time is divided by: the calls, or the rounds of a kind.
    counted: usize,
}

fn load(name: &'static str, calls: &[Call]) -> Load {
    let is_advance = |call: &&Call| matches!(call, Call::Advance { .. });
    Load {
        name,
        trace: trace_of(1, calls),
        calls: calls.len(),
        advances: calls.iter().filter(is_advance).count(),
        counted: calls.len(),
    }
}

// Measuring.

/// Seconds that a player takes for a load, played so many times.
fn timed(load: &Load, player: Player, times: usize, answers: &mut [u8]) -> f64 {
    let start = Instant::now();
    for _ in 0..times {
        let result = player(&load.trace, answers);
        assert_eq!(result, 256 * load.calls as u64, "{}", load.name);
    }
    start.elapsed().as_secs_f64()
}

/// One round of those that are compared, in turn, so that a slow moment of the machine meets them all.
/// Each round begins with another one of them, and odd ones go backwards, so that none always finds the
/// caches as the same other one left them. Keeps the best nanoseconds of each for one of what is counted.
fn in_turn(round: usize, counted: usize, best: &mut [f64], mut seconds: impl FnMut(usize) -> f64) {
    for turn in 0..best.len() {
        let steps = if round % 2 == 1 {
            best.len() - turn
        } else {
            turn
        };
        let which = (round + steps) % best.len();
        let nanoseconds = seconds(which) * 1e9 / counted as f64;
        best[which] = best[which].min(nanoseconds);
    }
}

/// One round of a load.
fn play_a_round(load: &Load, players: &[Player], round: usize, best: &mut [f64]) {
    let times = CALLS_IN_A_ROUND.div_ceil(load.calls);
    let mut answers = vec![vec![0; 5 * load.calls]; players.len()];
    in_turn(round, times * load.counted, best, |which| {
        timed(load, players[which], times, &mut answers[which])
    });
    for other in &answers[1..] {
        assert!(*other == answers[0], "{}: answers differ", load.name);
    }
}

/// The best nanoseconds of each player for one of what a load counts. A round goes through all
/// loads, so that a slow while of the machine spoils a round and not a load.
fn measured(loads: &[Load], players: &[Player]) -> Vec<Vec<f64>> {
    let mut best = vec![vec![f64::INFINITY; players.len()]; loads.len()];
    for round in 0..ROUNDS {
        for (load, best) in loads.iter().zip(&mut best) {
            play_a_round(load, players, round, best);
        }
    }
    best
}

const NAMES: [&str; 3] = ["archive", "independent", "old archive"];

/// The archive, the independent program, and the old archive if there is one.
fn players() -> Vec<Player> {
    let both: [Player; 2] = [archive::play, trace::play];
    both.into_iter().chain(OLD_PLAYER).collect()
}

// Printing.

/// A line for each load: nanoseconds of each player, and the archive's over those of the others.
/// Gives the archive's of the last.
fn table(title: &str, counted: &str, loads: &[Load]) -> f64 {
    print!("{title:<32}{counted:>9}{:>11}", "archive");
    if OLD_PLAYER.is_some() {
        print!("{:>12}{:>9}", "old", "/ old");
    }
    println!("{:>14}{:>10}", "independent", "/ indep.");
    let times = measured(loads, &players());
    for (load, times) in loads.iter().zip(&times) {
        let (archive, independent) = (times[0], times[1]);
        print!("{:<32}{:>9}{archive:>8.1} ns", load.name, load.counted);
        if let Some(old) = times.get(2) {
            print!("{old:>9.1} ns{:>9.3}", archive / old);
        }
        println!("{independent:>11.1} ns{:>10.3}", archive / independent);
    }
    times[loads.len() - 1][0]
}

// Mixed traces.

/// An older archive refuses traces with calls that came after it.
fn is_known(call: &Call) -> bool {
    let trace = trace_of(1, &[*call]);
    players()
        .iter()
        .all(|play| play(&trace, &mut [0; 5]) == 256)
}

/// A list without the calls that not all players know.
fn known(mut calls: Vec<Call>) -> Vec<Call> {
    calls.retain(is_known);
    calls
}

fn mixed_loads() -> Vec<Load> {
    let (short, middle, long) = (Random::new(1), Random::new(3), Random::new(2));
    vec![
        load("short advances", &known(short_advances(short, 1, 5_000))),
        load("middle advances", &known(middle_advances(middle, 1, 3_000))),
        load("long advances", &known(long_advances(long, 1, 300))),
        load("hostile, in short", &hostile(400)),
    ]
}

fn mixed() {
    let loads = mixed_loads();
    table("mixed calls, each", "calls", &loads);
    for load in &loads {
        println!("  {}: {} are advances", load.name, load.advances);
    }
}

// Single kinds of calls.

/// How often a kind is repeated in its trace.
const REPEATED: usize = 5_000;

fn load_of(kind: &Kind) -> Load {
    Load {
        counted: REPEATED,
        ..load(kind.name, &kind.calls(REPEATED))
    }
}

/// Do all players know the calls of a kind, and do the same in them? An older archive, in which
/// Start Convert alone arms, answers a trigger that arms alike, but ignores it: New Data shows that.
fn is_measured(kind: &Kind) -> bool {
    let mut calls = kind.calls(1);
    calls.push(Call::Read {
        width: 16,
        offset: 0x14,
    });
    let load = load(kind.name, &calls);
    let played = |play: &Player| {
        let mut answers = vec![0; 5 * load.calls];
        (play(&load.trace, &mut answers), answers)
    };
    let all: Vec<(u64, Vec<u8>)> = players().iter().map(played).collect();
    assert!(all[0] == all[1], "{}: answers differ", kind.name);
    all.last() == all.first()
}

fn single_kinds() {
    let measured = kinds().into_iter().filter(is_measured);
    let loads: Vec<Load> = measured.map(|kind| load_of(&kind)).collect();
    table("one kind of call, each", "times", &loads);
    name_those_left_out();
}

fn name_those_left_out() {
    for kind in kinds().iter().filter(|kind| !is_measured(kind)) {
        println!("  {}: the old archive does not do this", kind.name);
    }
}

// The longest advance.

/// The modes by their Control word: straight, single ended, timer on, trigger input in the last.
const MODES: [(&str, u32); 5] = [
    ("uniform continuous", 0x0909),
    ("uniform single", 0x0A09),
    ("burst continuous", 0x0B09),
    ("burst single", 0x0C09),
    ("external trigger only", 0x0D0B),
];

const TICKS: [u32; 3] = [64, 4_096, LONGEST_ADVANCE];

const STARTS: usize = 2_000;

/// 32 channels with I = 64, and over and over a start and an advance. The start is refused while a
/// cycle runs.
fn advances_in(mode: u32, ticks: u32) -> Load {
    let mut calls = vec![
        write_16(0x04, mode),
        write_16(0x08, 0x4000),
        write_16(0x0C, 1),
        write_16(0x10, 0x1F00),
    ];
    for _ in 0..STARTS {
        calls.extend([write_16(0x24, 1), Call::Advance { ticks }]);
    }
    Load {
        counted: STARTS,
        ..load("advances", &calls)
    }
}

fn longest_advances() {
    let loads_of = |(_, mode)| TICKS.map(|ticks| advances_in(mode, ticks));
    let loads = MODES.map(loads_of).into_iter().flatten();
    let times = measured(&loads.collect::<Vec<Load>>(), &players());
    for (which, name) in NAMES.iter().enumerate().take(players().len()) {
        println!("{name}, a start and an advance, 32 channels, I = 64:");
        for ((mode, _), of_mode) in MODES.iter().zip(times.chunks(TICKS.len())) {
            println!(
                "  {mode:<22} 64 ticks {:>6.0} ns, 4,096 ticks {:>6.0} ns, 16,777,216 ticks {:>6.0} ns",
                of_mode[0][which], of_mode[1][which], of_mode[2][which]
            );
        }
    }
}

// The whole hostile trace.

/// As many longest advances as 16,777,216 bytes hold: 7 bytes each, after heading and five writes.
fn whole_hostile() -> Load {
    let advances = (trace::LONGEST_TRACE - 8 - 5 * 10) / 7;
    load("hostile, 16 MiB", &hostile(advances))
}

fn longest_trace() {
    let whole = [whole_hostile()];
    let nanoseconds = table("the longest trace, each", "calls", &whole);
    let seconds = nanoseconds / 1e9 * whole[0].calls as f64;
    println!(
        "  {} bytes, {seconds:.2} s in the archive",
        whole[0].trace.len()
    );
}

// The load as the archive makes it, or from a file: every player plays these bytes.

const LOAD_SEED: u32 = 1;
const LOAD_RANGE: u32 = 1;
const LOAD_CALLS: u32 = 2_000_000;

/// Seconds in which the load is made. Afterwards the buffer holds its bytes and no others.
fn timed_making(make: Loader, buffer: &mut Vec<u8>) -> f64 {
    buffer.resize(trace::LONGEST_TRACE, 1);
    let start = Instant::now();
    let answer = make(LOAD_SEED, LOAD_RANGE, LOAD_CALLS, buffer);
    let seconds = start.elapsed().as_secs_f64();
    assert_eq!(answer.number, 0);
    buffer.truncate(answer.value as usize);
    seconds
}

/// The load, and the best nanoseconds a call in which each program makes it.
fn made_load() -> (Vec<u8>, [f64; 2]) {
    let makers: [Loader; 2] = [archive::load, independent_load];
    // Filled, so that neither is the first to touch its memory.
    let mut made = [1, 2].map(|filling| vec![filling; trace::LONGEST_TRACE]);
    let mut best = [f64::INFINITY; 2];
    for round in 0..ROUNDS {
        in_turn(round, LOAD_CALLS as usize, &mut best, |which| {
            timed_making(makers[which], &mut made[which])
        });
    }
    let [trace, other] = made;
    assert!(trace == other, "the loads differ");
    (trace, best)
}

/// The best nanoseconds of a call, and the answers, of each player.
fn played_load(load: &Load, players: &[Player]) -> (Vec<f64>, Vec<Vec<u8>>) {
    let mut best = vec![f64::INFINITY; players.len()];
    // Filled, so that no player is the first to touch its memory; each in its own way, so that all is written.
    let filled = |which| vec![0xA0 + which as u8; 5 * load.calls];
    let mut answers: Vec<Vec<u8>> = (0..players.len()).map(filled).collect();
    let times = CALLS_IN_A_ROUND.div_ceil(load.calls);
    for round in 0..ROUNDS {
        in_turn(round, times * load.calls, &mut best, |which| {
            timed(load, players[which], times, &mut answers[which])
        });
    }
    (best, answers)
}

fn print_played(load: &Load) {
    let (best, answers) = played_load(load, &players());
    for ((name, nanoseconds), answers) in NAMES.iter().zip(&best).zip(&answers) {
        let answers = format!("answers {:016X}", fnv_1a(answers));
        // A call in n nanoseconds is 1000 / n million calls a second.
        println!(
            "  {name:<12}{nanoseconds:>8.2} ns{:>8.2} million calls a second, archive / this {:.3}, {answers}",
            1e3 / nanoseconds,
            best[0] / nanoseconds
        );
    }
    assert!(
        answers.iter().all(|other| *other == answers[0]),
        "answers differ"
    );
}

/// What is played. By the digest two machines can see that they had the same bytes.
fn print_stated(what: &str, range: u32, calls: usize, trace: &[u8]) {
    println!(
        "{what}, range {range}, {calls} calls, {} bytes, digest {:016X}",
        trace.len(),
        fnv_1a(trace)
    );
}

fn print_made([archive, independent]: [f64; 2]) {
    println!(
        "  made by the archive in {archive:.2} ns a call, {:.1} million calls a second, archive / independent {:.3}",
        1e3 / archive,
        archive / independent
    );
}

fn load_by_archive() {
    let (trace, best) = made_load();
    let (range, calls) = decoded(&trace).expect("a load is a good trace");
    let what = format!("the load of seed {LOAD_SEED}");
    print_stated(&what, range, calls.len(), &trace);
    print_made(best);
    print_played(&Load {
        trace,
        ..load("the load", &calls)
    });
}

/// Why a file is no trace.
fn reason(number: u64) -> &'static str {
    match number {
        18 => "no trace: it is too long, or does not begin with the heading of a trace",
        19 => "no trace: a field is cut off, or has a tag or a length that no field has",
        _ => "no trace: a recorded answer follows no call",
    }
}

/// A load that `tools/load.c` wrote, or another trace. With a seed it must be the load of that seed.
fn load_of_file(name: &str, seed: Option<u32>) {
    let trace = std::fs::read(name).unwrap_or_else(|error| fail(name, &error.to_string()));
    let (range, calls) = decoded(&trace).unwrap_or_else(|number| fail(name, reason(number)));
    if calls.is_empty() {
        fail(name, "no call to be timed");
    }
    let what = match seed {
        Some(seed) if is_load_of(seed, &trace) => format!("the load of seed {seed}"),
        Some(seed) => fail(name, &format!("not the load of seed {seed}")),
        None => "a trace".to_string(),
    };
    print_stated(&format!("{name}: {what}"), range, calls.len(), &trace);
    print_played(&Load {
        trace,
        ..load("a file", &calls)
    });
}

fn fail(name: &str, reason: &str) -> ! {
    eprintln!("benchmark: {name}: {reason}");
    std::process::exit(1)
}

// Stepping: the same calls, made one by one on a board that is held here.

/// Seconds that a list takes, from a new board on, made so many times. Adds its answers up.
fn timed_steps(calls: &[Call], times: usize, sum: &mut u64) -> f64 {
    let start = Instant::now();
    for _ in 0..times {
        let mut board = SteppedBoard::filled(0);
        assert_eq!(board.open(1), 0);
        for call in calls {
            *sum = sum.wrapping_add(board.call(call));
        }
    }
    start.elapsed().as_secs_f64()
}

/// What the results of the calls add up to, by a player's answers.
fn sum_of(answers: &[u8]) -> u64 {
    let result = |bytes: &[u8]| {
        let value = u32::from_le_bytes([bytes[1], bytes[2], bytes[3], bytes[4]]);
        256 * u64::from(value) + u64::from(bytes[0])
    };
    answers.chunks_exact(5).map(result).sum()
}

/// One round: stepped and played.
fn step_a_round(load: &Load, calls: &[Call], round: usize, best: &mut [f64; 2]) {
    let times = CALLS_IN_A_ROUND.div_ceil(load.calls);
    let mut answers = vec![0; 5 * load.calls];
    let mut sum = 0;
    in_turn(round, times * load.counted, best, |which| match which {
        0 => timed_steps(calls, times, &mut sum),
        _ => timed(load, archive::play, times, &mut answers),
    });
    assert_eq!(
        sum,
        times as u64 * sum_of(&answers),
        "{}: answers differ",
        load.name
    );
}

fn stepping_table(title: &str, counted: &str, loads: &[Load]) {
    let lists: Vec<Vec<Call>> = loads
        .iter()
        .map(|load| decoded(&load.trace).expect("a good trace").1)
        .collect();
    let mut best = vec![[f64::INFINITY; 2]; loads.len()];
    for round in 0..ROUNDS {
        for ((load, calls), best) in loads.iter().zip(&lists).zip(&mut best) {
            step_a_round(load, calls, round, best);
        }
    }
    println!(
        "{title:<32}{counted:>9}{:>11}{:>14}{:>10}",
        "stepped", "played", "/ played"
    );
    for (load, [stepped, played]) in loads.iter().zip(best) {
        println!(
            "{:<32}{:>9}{stepped:>8.1} ns{played:>11.1} ns{:>10.3}",
            load.name,
            load.counted,
            stepped / played
        );
    }
}

/// Nanoseconds of the question when the next store comes, on a board that scans in this mode.
fn next_store_in(mode: u32) -> f64 {
    const ASKED: usize = 100_000;
    let mut board = SteppedBoard::filled(0);
    assert_eq!(board.open(1), 0);
    for call in started(mode) {
        assert_eq!(board.call(&call), 0);
    }
    let mut best = f64::INFINITY;
    for _ in 0..ROUNDS {
        let start = Instant::now();
        for _ in 0..ASKED {
            black_box(black_box(&board).next_store());
        }
        best = best.min(start.elapsed().as_secs_f64() * 1e9 / ASKED as f64);
    }
    best
}

fn stepping() {
    let mixed = mixed_loads();
    stepping_table("stepping, mixed calls, each", "calls", &mixed[..3]);
    println!();
    let loads: Vec<Load> = kinds().iter().map(load_of).collect();
    stepping_table("stepping, one kind, each", "times", &loads);
    println!("next store, asked of a running board:");
    for (name, mode) in MODES {
        println!("  {name:<22} {:.1} ns", next_store_in(mode));
    }
}

// Replays, beside playing the same bytes: a trace, and its recording with a right answer after every call.

/// The load of a trace, and the one of its recording.
struct Pair {
    alone: Load,
    recorded: Load,
}

fn pair(alone: Load) -> Pair {
    let (range, calls) = decoded(&alone.trace).expect("a good trace");
    let mut answers = vec![0; 5 * alone.calls];
    trace::play(&alone.trace, &mut answers);
    let right = answers.chunks_exact(5).map(answer_of_bytes).map(Some);
    let fields = recording(&calls, &right.collect::<Vec<_>>());
    let trace = trace_of_fields(range as u8, &fields);
    let recorded = Load { trace, ..alone };
    Pair { alone, recorded }
}

fn independent_replay(trace: &[u8]) -> u64 {
    replay(trace).packed()
}

/// Seconds that a replay takes, so many times. So many recorded answers are compared, and all agree.
fn timed_replay(load: &Load, replay: fn(&[u8]) -> u64, times: usize, compared: usize) -> f64 {
    let start = Instant::now();
    for _ in 0..times {
        let result = replay(black_box(&load.trace));
        assert_eq!(result, (compared as u64) << 32, "{}", load.name);
    }
    start.elapsed().as_secs_f64()
}

/// One round: the archive plays and replays the trace and its recording; the independent program replays the
/// recording; an old archive, if there is one, plays the trace.
fn replay_a_round(pair: &Pair, round: usize, best: &mut [f64]) {
    let Pair { alone, recorded } = pair;
    let calls = alone.calls;
    let times = CALLS_IN_A_ROUND.div_ceil(calls);
    let mut answers = [0, 1, 2].map(|filling| vec![filling; 5 * calls]);
    let [first, second, third] = &mut answers;
    in_turn(round, times * alone.counted, best, |which| match which {
        0 => timed(alone, archive::play, times, first),
        1 => timed_replay(alone, archive::replay, times, 0),
        2 => timed(recorded, archive::play, times, second),
        3 => timed_replay(recorded, archive::replay, times, calls),
        4 => timed_replay(recorded, independent_replay, times, calls),
        _ => timed(alone, OLD_PLAYER.expect("it is measured"), times, third),
    });
    let played = 2 + usize::from(OLD_PLAYER.is_some());
    for other in &answers[1..played] {
        assert!(*other == answers[0], "{}: answers differ", alone.name);
    }
}

fn replay_table(title: &str, counted: &str, pairs: &[Pair]) {
    let compared = 5 + usize::from(OLD_PLAYER.is_some());
    let mut best = vec![vec![f64::INFINITY; compared]; pairs.len()];
    for round in 0..ROUNDS {
        for (pair, best) in pairs.iter().zip(&mut best) {
            replay_a_round(pair, round, best);
        }
    }
    replay_head(title, counted);
    for (pair, times) in pairs.iter().zip(best) {
        replay_line(&pair.alone, &times);
    }
}

/// The columns, under what is played and replayed in them.
fn replay_head(title: &str, counted: &str) {
    let (old, width) = match OLD_PLAYER {
        Some(_) => (format!("{:>12}{:>9}", "old", "/ old"), 45),
        None => (String::new(), 24),
    };
    println!("{:46}{:width$}a 09H after every call", "", "no 09H");
    print!("{title:<32}{counted:>9}{:>11}{old}", "played");
    print!("{:>12}", "replayed /");
    print!("{:>12}{:>10}", "played", "/ no 09H");
    print!("{:>12}{:>10}", "replayed", "/ played");
    println!("{:>14}{:>10}", "independent", "/ indep.");
}

fn replay_line(load: &Load, times: &[f64]) {
    let [alone, alone_replayed, played, replayed, independent, ..] = times[..] else {
        panic!("five at least are measured");
    };
    print!("{:<32}{:>9}{alone:>8.1} ns", load.name, load.counted);
    if let Some(old) = times.get(5) {
        print!("{old:>9.1} ns{:>9.3}", alone / old);
    }
    print!("{:>12.3}", alone_replayed / alone);
    print!("{played:>9.1} ns{:>10.3}", played / alone);
    print!("{replayed:>9.1} ns{:>10.3}", replayed / played);
    println!("{independent:>11.1} ns{:>10.3}", replayed / independent);
}

fn replays() {
    let mixed = mixed_loads().into_iter().take(3).map(pair);
    let mixed: Vec<Pair> = mixed.collect();
    replay_table("recordings, mixed calls, each", "calls", &mixed);
    println!();
    let measured = kinds().into_iter().filter(is_measured);
    let single: Vec<Pair> = measured.map(|kind| pair(load_of(&kind))).collect();
    replay_table("recordings, one kind, each", "times", &single);
    name_those_left_out();
}

// The window: a run of codes, and the sum of the last ones after each.

/// Codes in a run: a few more than the longest window, and many.
const RUNS: [usize; 2] = [40, 4_096];

const CODES_IN_A_ROUND: usize = 1_000_000;

/// The archive, and a loop that one would write in Rust.
const WINDOWS: [Window; 2] = [archive::window, plain];

struct Run {
    length: u32,
    codes: Vec<u16>,
}

fn runs() -> Vec<Run> {
    let mut random = Random::new(8);
    let mut run_of = |length, count| Run {
        length,
        codes: (0..count).map(|_| random.bits() as u16).collect(),
    };
    LENGTHS
        .iter()
        .flat_map(|length| RUNS.map(|count| run_of(*length, count)))
        .collect()
}

/// Seconds that a window takes for a run, so many times. Window and length are hidden from the
/// compiler, so that it makes no code for this one case, and the sums count as read, so that it leaves
/// none of them out.
fn timed_window(run: &Run, window: Window, times: usize, sums: &mut [u32]) -> f64 {
    let start = Instant::now();
    for _ in 0..times {
        let answer = black_box(window)(black_box(run.length), black_box(&run.codes), sums);
        assert_eq!(answer.number, 0);
        black_box(&mut *sums);
    }
    start.elapsed().as_secs_f64()
}

fn window_a_round(run: &Run, round: usize, best: &mut [f64; 2]) {
    let times = CODES_IN_A_ROUND.div_ceil(run.codes.len());
    let mut sums = [0, 1].map(|filling| vec![filling; run.codes.len()]);
    in_turn(round, times * run.codes.len(), best, |which| {
        timed_window(run, WINDOWS[which], times, &mut sums[which])
    });
    assert!(sums[0] == sums[1], "length {}: sums differ", run.length);
}

fn window() {
    let runs = runs();
    let mut best = vec![[f64::INFINITY; 2]; runs.len()];
    for round in 0..ROUNDS {
        for (run, best) in runs.iter().zip(&mut best) {
            window_a_round(run, round, best);
        }
    }
    println!(
        "{:<32}{:>9}{:>24}{:>24}{:>10}",
        "window, each code", "codes", "archive", "plain loop", "/ plain"
    );
    for (run, [archive, plain]) in runs.iter().zip(best) {
        // A code in n nanoseconds is 1000 / n million codes a second.
        println!(
            "{:<32}{:>9}{archive:>9.3} ns{:>8.0} M/s{plain:>9.3} ns{:>8.0} M/s{:>10.3}",
            format!("N = {}", run.length),
            run.codes.len(),
            1e3 / archive,
            1e3 / plain,
            archive / plain
        );
    }
}

fn all() {
    mixed();
    println!();
    single_kinds();
    println!();
    longest_advances();
    println!();
    longest_trace();
    println!();
    load_by_archive();
    println!();
    stepping();
    println!();
    replays();
    println!();
    window();
}

fn usage() -> ! {
    eprintln!("usage: benchmark [load [FILE [SEED]] | stepping | replay | window]");
    std::process::exit(2)
}

fn main() {
    let words: Vec<String> = std::env::args().skip(1).collect();
    let words: Vec<&str> = words.iter().map(String::as_str).collect();
    match words[..] {
        [] => all(),
        ["load"] => load_by_archive(),
        ["load", name] => load_of_file(name, None),
        ["load", name, seed] => {
            let seed = seed.parse().unwrap_or_else(|_| usage());
            load_of_file(name, Some(seed))
        }
        ["stepping"] => stepping(),
        ["replay"] => replays(),
        ["window"] => window(),
        _ => usage(),
    }
}
