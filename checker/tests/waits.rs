//! How long a channel can wait for its next store. The archive's stores with their ticks, found from outside, against
//! the longest wait that is stated, against the schedule and against the logbook.

use checker::board::call::{Call, Calls};
use checker::board::logbook::{Event, Logbook};
use checker::cases::script::steps;
use checker::draw::continuous::{all_kinds, draw_list, Drawn};
use checker::draw::random::seed_or;
use checker::judge::coverage::Coverage;
use checker::judge::waits::{Part, Scan, Stored, Wait, Watch};

const SEED: u64 = 7;

const SCANS: usize = 30_000;

/// A list of up to so many ticks goes to the logbook too, which goes tick by tick.
const TICKS_OF_THE_LOGBOOK: u64 = 40_000;

#[test]
fn drawn_continuous_scans() {
    let seed = seed_or(SEED);
    let mut coverage = Coverage::new(all_kinds());
    let (mut scans, mut calls, mut by_logbook) = (0, 0, 0);
    let (mut uniform, mut burst) = (Seen::default(), Seen::default());
    let mut difference = None;
    for list in 0.. {
        let (watch, drawn) = draw_list(seed, list);
        for drawn in &drawn {
            check(&drawn.part);
            coverage.note(drawn);
            let is_uniform = drawn.part.scan.control.is_uniform();
            let seen = if is_uniform { &mut uniform } else { &mut burst };
            seen.note(drawn);
        }
        difference = difference.or(watch.difference);
        if ticks_of(&watch.calls) <= TICKS_OF_THE_LOGBOOK {
            check_by_logbook(watch.range, &watch.calls, &drawn);
            by_logbook += drawn.len();
        }
        scans += drawn.len();
        calls += watch.calls.len();
        if scans >= SCANS {
            break;
        }
    }
    println!(
        "{scans} scans drawn from seed {seed}: {calls} calls; {by_logbook} scans by the logbook too"
    );
    println!("uniform continuous: {}", uniform.text());
    println!("burst continuous: {}", burst.text());
    println!("{}", coverage.table());
    assert_eq!(difference, None);
    assert!(by_logbook > 8_000);
    // In every such scan the stated figure is met to the tick in uniform mode, and by 64 ticks not in burst mode.
    assert_eq!(uniform.left, Some((0, 0)));
    assert_eq!(burst.left, Some((64, 64)));
    coverage.assert_all_met();
}

/// What was seen of the scans with a span of a pass plus 64 ticks.
#[derive(Default)]
struct Seen {
    scans: u32,
    stores: usize,
    longest: u64,
    /// By how many ticks their longest waits are below the stated one: the least and the most.
    left: Option<(u64, u64)>,
}

impl Seen {
    fn note(&mut self, drawn: &Drawn) {
        self.stores += drawn.part.stores.len();
        if drawn.has_whole_span() {
            let left = drawn.part.scan.longest_wait_allowed() - drawn.longest.ticks;
            self.scans += 1;
            self.longest = self.longest.max(drawn.longest.ticks);
            let (least, most) = self.left.unwrap_or((left, left));
            self.left = Some((least.min(left), most.max(left)));
        }
    }

    fn text(&self) -> String {
        let Seen { scans, stores, .. } = self;
        let (least, most) = self.left.expect("a span of P + 64 ticks");
        format!(
            "{stores} stores; {scans} scans with a span of P + 64 ticks, their longest waits {least} to {most} ticks \
             below P + 64, the longest of all {} ticks",
            self.longest
        )
    }
}

fn ticks_of(calls: &[Call]) -> u64 {
    let ticks = calls.iter().map(|call| match *call {
        Call::Advance { ticks } if ticks <= 16_777_216 => ticks.into(),
        _ => 0,
    });
    ticks.sum()
}

// What must hold of a measured part.

fn check(part: &Part) {
    assert!(part.scan.is_continuous(), "{}", part.name);
    check_allowed(part, &part.stores, "the archive");
    check_exact(part);
    let scheduled = part.scan.scheduled(part.start, part.end);
    check_stores(part, &scheduled, "the schedule");
}

/// No wait is longer than one pass plus 64 ticks, and of a slot none is longer than two passes plus 64.
fn check_allowed(part: &Part, stores: &[Stored], route: &str) {
    let Part { name, scan, .. } = part;
    let allowed = scan.longest_wait_allowed();
    for (place, wait) in part.waits_of_channels(stores).iter().enumerate() {
        assert!(
            wait.ticks <= allowed,
            "{name}: by {route} channel {} waits longer than {allowed}: {wait:?}, {scan:?}",
            scan.first + place
        );
    }
    if scan.control.is_differential() {
        let allowed = scan.longest_wait_allowed_of_a_slot();
        for wait in part.waits_of_slots(stores) {
            assert!(
                wait.ticks <= allowed,
                "{name}: by {route} a slot waits longer than {allowed}: {wait:?}, {scan:?}"
            );
        }
    }
}

/// A first store after so many ticks, and one each period after it: the longest wait in so many ticks, where the
/// wait at the end counts up to the next tick.
fn worked_out(first: u64, period: u64, ticks: u64) -> u64 {
    let until = ticks + 1;
    until
        .min(first)
        .max(period.min(until.saturating_sub(first)))
}

/// Ticks from T to the first store of a channel.
fn first_store(scan: &Scan, place: u64) -> u64 {
    if scan.control.is_uniform() {
        (place + 1) * scan.interval + 64
    } else {
        120 * place + 64
    }
}

/// Each longest wait to the tick, and how the longest of all stands to the stated one.
fn check_exact(part: &Part) {
    let Part { name, scan, .. } = part;
    let pass = scan.pass();
    let waits = part.waits_of_channels(&part.stores);
    for (wait, place) in waits.iter().zip(0..) {
        let expected = worked_out(first_store(scan, place), pass, part.ticks());
        assert_eq!(wait.ticks, expected, "{name}: place {place}, {scan:?}");
    }
    if scan.control.is_differential() {
        for (wait, index) in part.waits_of_slots(&part.stores).iter().zip(0..) {
            let (half, place) = (index / scan.m, index % scan.m);
            let first = half * pass + first_store(scan, place);
            let expected = worked_out(first, 2 * pass, part.ticks());
            assert_eq!(wait.ticks, expected, "{name}: half {half}, place {place}");
        }
    }
    if part.ticks() + 1 >= pass + 64 {
        check_longest(part, &waits);
    }
}

/// Of a scan that ran long enough. Uniform: the last channel waits P + 64 from T on, and only it and only there waits
/// longer than P. Burst: the longest wait is P.
fn check_longest(part: &Part, waits: &[Wait]) {
    let Part { name, scan, .. } = part;
    let pass = scan.pass();
    if scan.control.is_uniform() {
        let (last, others) = waits.split_last().expect("a channel");
        let (from, ticks) = (part.start, pass + 64);
        assert_eq!(*last, Wait { from, ticks }, "{name}");
        assert!(others.iter().all(|wait| wait.ticks <= pass), "{name}");
    } else {
        let longest = waits.iter().map(|wait| wait.ticks).max();
        assert_eq!(longest, Some(pass), "{name}");
    }
}

/// The same slots at the same ticks, by another route.
fn check_stores(part: &Part, expected: &[Stored], route: &str) {
    let (stores, name) = (&part.stores, &part.name);
    if let Some(index) = stores.iter().zip(expected).position(|(a, b)| a != b) {
        let (stored, expected) = (stores[index], expected[index]);
        panic!("{name}: store {index} is {stored:?}, by {route} {expected:?}");
    }
    assert_eq!(
        stores.len(),
        expected.len(),
        "{name}: stores, by {route} (right)"
    );
}

// By the logbook.

/// The same list, tick by tick.
fn check_by_logbook(range: u32, calls: &[Call], drawn: &[Drawn]) {
    let mut logbook = Logbook::new(range);
    let make = |logbook: &mut Logbook, calls: &[Call]| {
        for call in calls {
            logbook.call(call);
        }
    };
    let mut made = 0;
    for Drawn { part, .. } in drawn {
        make(&mut logbook, &calls[made..part.calls_before]);
        made = part.calls_before + part.calls.len();
        let events_before = logbook.events.len();
        make(&mut logbook, &calls[part.calls_before..made]);
        let events = &logbook.events[events_before..];
        let stores: Vec<Stored> = events.iter().filter_map(stored).collect();
        check_allowed(part, &stores, "the logbook");
        check_stores(part, &stores, "the logbook");
    }
}

fn stored(event: &Event) -> Option<Stored> {
    match *event {
        Event::Store { tick, slot, .. } => Some(Stored { tick, slot }),
        _ => None,
    }
}

// Span by span.

/// Spans of so many ticks without a store of some channel, as the tick t and the channel: a span from tick t covers t +
/// 1 to its end, from T on and as far as the list advances.
fn spans_without(part: &Part, ticks: u64) -> Vec<(u64, usize)> {
    let scan = &part.scan;
    let mut found = Vec::new();
    for channel in scan.first..scan.first + scan.m as usize {
        let is_of_channel = |stored: &&Stored| scan.channel_of(stored.slot) == channel;
        let of_channel = part.stores.iter().filter(is_of_channel);
        let stores: Vec<u64> = of_channel.map(|stored| stored.tick).collect();
        let spans = (part.start..).take_while(|t| t + ticks <= part.end);
        let is_without = |t: &u64| !stores.iter().any(|tick| (t + 1..=t + ticks).contains(tick));
        found.extend(spans.filter(is_without).map(|t| (t, channel)));
    }
    found.sort_unstable();
    found
}

/// What is stated, on small scans, with every span looked at: none of P + 64 ticks is without a store. In uniform mode
/// one of P + 63 is, from T on, without the last channel; in burst mode those of P - 1 from each store on are.
#[test]
fn every_span_of_small_scans() {
    let seed = seed_or(SEED + 1);
    let (mut scans, mut spans, mut shorter) = (0, 0, 0);
    for list in 0..2_500 {
        let (_, drawn) = draw_list(seed, list);
        for Drawn { part, .. } in drawn.iter().filter(|drawn| drawn.part.ticks() <= 4_000) {
            let Part { name, scan, .. } = part;
            let allowed = scan.longest_wait_allowed();
            let without = spans_without(part, allowed);
            assert_eq!(without.first(), None, "{name}, {scan:?}: {allowed} ticks");
            let (ticks, expected) = too_short(part);
            let found = spans_without(part, ticks);
            assert_eq!(found, expected, "{name}, {scan:?}: {ticks} ticks");
            scans += 1;
            spans += (part.ticks() + 1).saturating_sub(allowed);
            shorter += found.len();
        }
    }
    println!(
        "{scans} scans drawn from seed {seed}: {spans} spans of P + 64 ticks with all channels;"
    );
    println!("{shorter} of P + 63 (uniform) or P - 1 (burst) without one");
    assert!(scans > 1_500 && spans > 1_000_000 && shorter > 5_000);
}

/// The longest spans that can be without a store of a channel, and where they are.
fn too_short(part: &Part) -> (u64, Vec<(u64, usize)>) {
    let scan = &part.scan;
    if scan.control.is_uniform() {
        let ticks = scan.pass() + 63;
        let last = scan.first + scan.m as usize - 1;
        let is_there = part.start + ticks <= part.end;
        let found = is_there.then_some((part.start, last));
        return (ticks, found.into_iter().collect());
    }
    let ticks = scan.pass() - 1;
    let mut stores = scan.scheduled(part.start, part.end);
    stores.retain(|stored| stored.tick + ticks <= part.end);
    let found = stores
        .iter()
        .map(|stored| (stored.tick, scan.channel_of(stored.slot)));
    (ticks, found.collect())
}

// Cases worked by hand.

/// A script up to the start, and one that is measured.
fn measured(start: &str, then: &str) -> Part {
    let mut watch = Watch::new(&format!("{start}; {then}"), 1);
    let make = |watch: &mut Watch, script: &str| {
        for step in steps(script) {
            let answer = watch.make(step.call);
            assert_eq!(answer, step.expected, "{}: {script}", step.call);
        }
    };
    make(&mut watch, start);
    watch.begin();
    make(&mut watch, then);
    let part = watch.end();
    assert_eq!(watch.difference, None);
    part
}

fn ticks_of_channels(part: &Part) -> Vec<u64> {
    let waits = part.waits_of_channels(&part.stores);
    waits.iter().map(|wait| wait.ticks).collect()
}

fn ticks_of_slots(part: &Part) -> Vec<u64> {
    let waits = part.waits_of_slots(&part.stores);
    waits.iter().map(|wait| wait.ticks).collect()
}

/// A uniform bench case, but continuous: I = 640, P = 11 x 640 = 7040. Channel 13 waits 7104 ticks, 888 us.
#[test]
fn the_bench_case_in_continuous_mode() {
    let part = measured(
        "write 16 04H 0909H; write 16 10H 0D03H; write 8 09H 80; write 16 0CH 8; advance 1000; write 16 24H 1",
        "advance 7103 = 10; read 16 14H = 1FF8H; advance 1 = 1; read 16 14H = 3FF8H; advance 70,400 = 110",
    );
    check(&part);
    assert_eq!(part.scan.longest_wait_allowed(), 7104);
    let mut expected = vec![7040; 11];
    expected[10] = 7104;
    assert_eq!(ticks_of_channels(&part), expected);
}

/// All channels at the least interval: P = 32 x 64 = 2048. Channel 31 waits 2112 ticks, 264 us.
#[test]
fn all_channels_at_the_least_interval() {
    let part = measured(
        "write 16 04H 0909H; write 16 10H 1F00H; write 8 09H 64; write 16 0CH 1; write 16 24H 1",
        "advance 2111 = 31; advance 1 = 1; advance 4096 = 64",
    );
    check(&part);
    assert_eq!(part.scan.longest_wait_allowed(), 2112);
    let mut expected = vec![2048; 32];
    expected[31] = 2112;
    assert_eq!(ticks_of_channels(&part), expected);
}

/// The burst bench case: slot 0 at 64, slot 16 at 184, slot 0 at 304. The channel waits 120 ticks, at most 184; a slot
/// 240, which is more than that, at most 304.
#[test]
fn a_burst_in_differential() {
    let part = measured(
        "write 16 04H 0301H; write 16 10H 0000H; write 16 24H 1",
        "advance 64 = 1; advance 120 = 1; advance 120 = 1; read 16 1CH = 0001H; advance 1200 = 10",
    );
    check(&part);
    let stored = |tick, slot| Stored { tick, slot };
    let first = [stored(64, 0), stored(184, 16), stored(304, 0)];
    assert_eq!(part.stores[..3], first);
    assert_eq!(part.scan.longest_wait_allowed(), 184);
    assert_eq!(part.scan.longest_wait_allowed_of_a_slot(), 304);
    assert_eq!(ticks_of_channels(&part), [120]);
    assert_eq!(ticks_of_slots(&part), [240, 240]);
}

/// Two channels at I = 64, P = 128: slot 17 is stored first at 4 x 64 + 64 = 320 = 2 P + 64, channel 1 at 192 = P + 64.
#[test]
fn slots_of_a_uniform_scan_in_differential() {
    let part = measured(
        "write 16 04H 0901H; write 16 10H 0100H; write 8 09H 1; write 16 0CH 64; write 16 24H 1",
        "advance 319 = 3; read 16 18H = 0001H; advance 1 = 1; read 16 18H = 0003H; advance 1280 = 20",
    );
    check(&part);
    assert_eq!(part.scan.longest_wait_allowed_of_a_slot(), 320);
    assert_eq!(ticks_of_channels(&part), [128, 192]);
    assert_eq!(ticks_of_slots(&part), [256, 256, 256, 320]);
}

/// Triggers, refused calls, releases, reads and clears while two channels are scanned at I = 64: channel 0 is stored at
/// 128 and channel 1 at 192, as without them.
#[test]
fn other_calls_leave_the_scan_alone() {
    let part = measured(
        "write 16 04H 090BH; write 16 10H 0100H; write 8 09H 64; write 16 0CH 1; advance 10; trigger",
        "
        advance 100; trigger; write 16 24H 1 refused 6; write 16 04H 090BH refused 6; write 8 05H 0AH refused 6
        advance 16,777,217 refused 13; look 32 refused 22; write 16 00H 8001H; advance 0
        advance 28 = 1; read 16 80H = 8000H; trigger; advance 63; trigger; clear 1; read 16 14H = 0
        advance 1 = 1; read 16 14H = 0002H; trigger; advance 1280 = 20
        ",
    );
    check(&part);
    assert_eq!(ticks_of_channels(&part), [128, 192]);
}

/// After a single mode's one pass nothing comes: the waits grow with the list, past a pass plus 64 ticks. The same
/// list in the continuous mode has none that long.
#[test]
fn single_modes_are_not_covered() {
    let channels = "write 16 10H 0300H; write 8 09H 10; write 16 0CH 10";
    // Control, stores of the pass, the first store, P.
    for (single, continuous, stores, first, pass) in [
        ("0A09H", "0909H", "advance 464 = 4", 164, 400),
        ("0401H", "0301H", "advance 424 = 4", 64, 480),
    ] {
        let start = |control| format!("{channels}; write 16 04H {control}; write 16 24H 1");
        let one_pass = measured(&start(single), stores);
        assert_eq!(one_pass.scan.pass(), pass);
        for more in [pass, 2 * pass, 1_000_000] {
            let part = measured(&start(single), &format!("{stores}; advance {more}"));
            assert!(!part.scan.is_continuous());
            let waits = ticks_of_channels(&part);
            assert_eq!(waits[0], one_pass.ticks() + more - first + 1, "{single}");
            assert!(
                waits[0] > part.scan.longest_wait_allowed(),
                "{single}, {more}"
            );
        }
        let part = measured(
            &start(continuous),
            &format!("{stores}; advance {} = 8", 2 * pass),
        );
        check(&part);
    }
}

/// D counts: two channels with D = 640 are stored at 64, 184, 944, 1064. P = 880; from 184 on 304 = 120 x 2 + 64 ticks
/// have no store at all.
#[test]
fn a_burst_with_the_timer_waits_for_it() {
    let part = measured(
        "write 16 04H 0B09H; write 16 10H 0100H; write 8 09H 80; write 16 0CH 8; write 16 24H 1",
        "advance 184 = 2; advance 304 = 0; advance 456 = 1; advance 120 = 1; advance 8800 = 20",
    );
    check(&part);
    assert_eq!(part.scan.longest_wait_allowed(), 944);
    assert_eq!(ticks_of_channels(&part), [880, 880]);
    let without = spans_without(&part, 304);
    assert!(without.contains(&(184, 0)) && without.contains(&(184, 1)));
}

/// With a stop before the span's end it does not hold: two channels at I = 64, each cycle stopped a tick before
/// channel 1 is stored at 192. It is never stored, though a cycle runs at every tick.
#[test]
fn a_stop_ends_what_is_covered() {
    let again = "write 8 05H 0; write 8 05H 09H; write 16 24H 1; advance 191 = 1";
    let part = measured(
        "write 16 04H 0909H; write 16 10H 0100H; write 8 09H 64; write 16 0CH 1; write 16 24H 1",
        &format!("advance 191 = 1; {again}; {again}"),
    );
    assert_eq!(part.scan.longest_wait_allowed(), 192);
    assert_eq!(ticks_of_channels(&part), [191, 3 * 191 + 1]);
}

/// The measure itself: channel 10 with stores at 5 and 20, channel 11 with one at 8, from T = 2 to the end at 30.
#[test]
fn waits_of_given_stores() {
    let mut part = measured("write 16 04H 0309H; write 16 10H 0B0AH; write 16 24H 1", "");
    (part.start, part.end) = (2, 30);
    let stores = [(5, 10), (8, 11), (20, 10)].map(|(tick, slot)| Stored { tick, slot });
    let wait = |from, ticks| Wait { from, ticks };
    assert_eq!(part.waits_of_channels(&stores), [wait(5, 15), wait(8, 23)]);
    part.stores = stores.to_vec();
    // One tick less than the wait: 9 to 30 is without channel 11, and 6 to 19 without channel 10.
    assert_eq!(spans_without(&part, 22), [(8, 11)]);
    assert_eq!(spans_without(&part, 23), []);
    let of_10 = spans_without(&part, 14);
    assert!(of_10.contains(&(5, 10)) && !of_10.contains(&(6, 10)));
}
