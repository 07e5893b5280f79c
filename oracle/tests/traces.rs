//! Traces: deterministic, wide enough, and every state that a call gives is well formed.

use std::collections::BTreeMap;
use std::fs;

use oracle::calls::Call;
use oracle::check::{self, NONE};
use oracle::games::{Answer, counted, cutter};
use oracle::make::corners::{self, Corners};
use oracle::make::{cutter_variations, sequences};
use oracle::replay::{Seen, replay_seen};
use oracle::state::*;
use oracle::sweeps::{Closing, Fate, Region, closes_at, closing};
use oracle::trace::Trace;

const SEED: u64 = 1;
const SEQUENCES: usize = 800;
const MEGABYTE: usize = 1_000_000;
/// Every call of the format.
const CALLS: [u8; 20] = [1, 2, 3, 4, 5, 6, 7, 17, 18, 19, 20, 21, 22, 23, 24, 25, 26, 29, 32, 33];

/// Every refusal number, and 0 for none.
const REFUSALS: [u8; 14] = [0, 1, 2, 4, 5, 6, 7, 8, 31, 32, 33, 34, 35, 36];

fn random(seed: u64, sequences: usize) -> Vec<u8> {
    let mut trace = sequences::start();
    for index in 0..sequences {
        sequences::sequence(&mut trace, seed, index);
    }
    trace.bytes
}

/// Call, refusal and answer of each entry, read by their places in the header.
fn headers(mut trace: &[u8]) -> Vec<[u8; 3]> {
    let mut headers = Vec::new();
    while let Some(header) = trace.first_chunk::<12>() {
        let length = |at| usize::from(u16::from_le_bytes([header[at], header[at + 1]]));
        headers.push([header[0], header[1], header[2]]);
        trace = &trace[12 + length(4) + length(6) + length(8)..];
    }
    headers
}

#[test]
fn a_seed_gives_one_trace() {
    assert_eq!(random(7, 16), random(7, 16));
    assert_ne!(random(7, 16), random(8, 16));
}

#[test]
fn the_corners_have_everything_each_trace_below_a_megabyte() {
    let mut seen = Vec::new();
    let mut tally = Tally::default();
    for (program, Corners { trace, swept, names }) in corners::all() {
        println!("{program}: {} corners, {} bytes", names.len(), trace.bytes.len());
        assert!(trace.bytes.len() < MEGABYTE, "{program}: {} bytes", trace.bytes.len());
        assert!(swept.is_none_or(|swept| swept.bytes.len() < MEGABYTE));
        let headers = headers(&trace.bytes);
        assert_eq!(headers.len(), trace.entries);
        seen.extend(headers);
        let report =
            replay_seen(trace.bytes.as_slice(), |seen| tally.see(&seen)).expect("in memory");
        assert_eq!((report.calls, report.differ), (trace.calls, 0));
    }
    for call in CALLS {
        assert!(seen.iter().any(|h| h[0] == call), "no call {call}");
    }
    for refusal in 0..=255 {
        let there = seen.iter().any(|h| h[1] == refusal);
        assert_eq!(there, REFUSALS.contains(&refusal), "refusal {refusal}");
    }
    for answer in 0..=4 {
        assert!(seen.iter().any(|h| h[2] == answer), "no answer {answer}");
    }
}

/// The bytes of a trace from each corner's first entry to the next corner's.
fn stretches(corners: &Corners) -> Vec<(&str, &[u8])> {
    let mut starts = vec![0];
    let bytes = corners.trace.bytes.as_slice();
    while let Some(header) = bytes[starts[starts.len() - 1]..].first_chunk::<12>() {
        let length = |at| usize::from(u16::from_le_bytes([header[at], header[at + 1]]));
        starts.push(starts[starts.len() - 1] + 12 + length(4) + length(6) + length(8));
    }
    let ends = corners.names.iter().skip(1).map(|&(entry, _)| entry).chain([corners.trace.entries]);
    let each = corners.names.iter().zip(ends);
    each.map(|((from, name), to)| (name.as_str(), &bytes[starts[*from]..starts[to]])).collect()
}

/// No corner is made again, in the same trace or in another.
#[test]
fn each_corner_is_made_once() {
    let all = corners::all();
    let each: Vec<_> = all.iter().flat_map(|(_, corners)| stretches(corners)).collect();
    for (i, (name, bytes)) in each.iter().enumerate() {
        let other = each[..i].iter().find(|(_, other)| other == bytes);
        assert!(other.is_none(), "{name} is {}", other.map_or("", |(name, _)| name));
    }
}

/// What the programs that replay corners read and are held to.
#[test]
fn the_stored_traces_are_the_corners() {
    let held = |program: &str, trace: &Trace| {
        let file = |name: &str| format!("../crates/{program}/{name}");
        let verdict = format!("{} calls, 0 differ\n", trace.calls);
        assert!(fs::read(file("stdin")).expect(program) == trace.bytes, "{program}: not as stored");
        assert_eq!(fs::read_to_string(file("stdout")).expect(program), verdict, "{program}");
    };
    for (program, Corners { trace, swept, .. }) in corners::all() {
        held(program, &trace);
        if let Some(swept) = swept {
            held("replay_swept", &swept);
        }
    }
}

/// The state before each such call of a trace.
fn befores(trace: &[u8], call: Call) -> Vec<State> {
    let mut befores = Vec::new();
    let see = |seen: Seen| befores.extend((*seen.call == call).then(|| seen.before.clone()));
    assert_eq!(replay_seen(trace, see).expect("in memory").differ, 0);
    befores
}

#[test]
fn each_step_of_the_corners_is_made_by_sweeps() {
    let Corners { trace, swept, .. } = corners::corners();
    let swept = swept.expect("a trace apart");
    let steps = befores(&trace.bytes, Call::Step);
    let [here, apart] = [&trace, &swept].map(|t| befores(&t.bytes, Call::StepBySweeps));
    println!(
        "{} steps by sweeps in the corners, {} in {} bytes",
        here.len(),
        apart.len(),
        swept.bytes.len()
    );
    assert_eq!(apart.len(), swept.calls);
    let mut both = [here, apart].concat();
    for before in &steps {
        let at = both.iter().position(|state| state == before).expect("the step by sweeps");
        both.remove(at);
    }
    // What is left begins at the states with a field at a boundary, each once.
    let states = [cutter_variations::boundaries(), cutter_variations::drawing_variations()];
    assert_eq!(both.len(), states.iter().map(Vec::len).sum());

    let mut pairs = Pairs::default();
    let closings = corners::closings().trace;
    replay_seen(closings.bytes.as_slice(), |seen| pairs.see(&seen)).expect("in memory");
    println!("{} steps of closings, each by sweeps right behind it", pairs.number);
    assert!(pairs.last.is_none() && pairs.number > 30, "{} steps", pairs.number);
}

#[test]
fn the_corners_are_what_their_names_say() {
    let all = corners::all();
    // The first call of each corner stands behind its entry 0.
    let first = |name: &str| {
        let found = all.iter().find_map(|(_, corners)| {
            let named = corners.names.iter().find(|(_, n)| n == name);
            named.map(|(entry, _)| (corners, *entry))
        });
        let (corners, entry) = found.expect(name);
        let mut found = None;
        let see = |seen: Seen| {
            if seen.entry == entry + 1 {
                found = Some((seen.outcome.answer, seen.before.clone(), seen.after.clone()));
            }
        };
        replay_seen(corners.trace.bytes.as_slice(), see).expect("in memory");
        found.expect("a call")
    };
    let cutter = |state: &State| match &state.game {
        Game::Cutter(c) => c.clone(),
        Game::Mine(_) => panic!("a Cutter corner"),
    };
    for (name, black, line, won) in [
        ("a pass at black 465: not won", 465, 0, false),
        ("a pass at black 464: won, then the next level", 464, 0, true),
        ("465 with an open line: not won", 465, 1, false),
        ("464 with an open line: won", 464, 1, true),
    ] {
        let (_, before, after) = first(name);
        let counts = [BLACK, LINE].map(|code| cutter(&before).count_of(code));
        assert_eq!((counts, cutter(&after).won_level), ([black, line], won), "{name}");
    }
    let (answer, before, after) = first("Mine won and dead: won");
    assert_eq!((answer, before), (Answer::Won, after));
    for (name, place) in [
        ("as near on all sides: left", (28, 15)),
        ("as near to the right, above and below: right", (36, 15)),
        ("as near above and below: up", (32, 11)),
        ("respawn beside what was line: no walk", (32, 0)),
    ] {
        let (_, _, after) = first(name);
        assert_eq!((cutter(&after).px, cutter(&after).py), place, "{name}");
    }
    let (_, _, after) = first("a step lays line before a creature, which then meets it");
    assert_eq!((cutter(&after).dead, cutter(&after).enemies[0].x), (true, 33));
    let (_, before, after) = first("a zigzag of 63 pockets, the large region uncounted");
    assert_eq!((cutter(&before).count, cutter(&after).count), (1, 0));
    for name in ["gravity", "creatures", "the step"] {
        for mark in [0, 4_294_967_000, u32::MAX] {
            let start = format!("nearest readings of {name} from mark {mark}");
            let names = all.iter().flat_map(|(_, corners)| &corners.names);
            let number = names.filter(|(_, n)| n.starts_with(&start)).count();
            assert_eq!(number, if name == "creatures" { 4 } else { 2 }, "{start}");
        }
    }
}

#[test]
fn the_edges_replay() {
    let trace = corners::edges();
    let mut pairs = Pairs::default();
    let report = replay_seen(trace.bytes.as_slice(), |seen| pairs.see(&seen)).expect("in memory");
    println!("edges: {} calls, {} bytes, {} steps", trace.calls, trace.bytes.len(), pairs.number);
    assert_eq!((report.calls, report.differ), (trace.calls, 0));
    assert!(pairs.last.is_none() && pairs.number > 100, "{} steps", pairs.number);
}

/// Steps with the same step by sweeps right behind each: the state that the last one began at, and
/// how many there were.
#[derive(Default)]
struct Pairs {
    last: Option<State>,
    number: usize,
}

impl Pairs {
    fn see(&mut self, seen: &Seen) {
        match (seen.call, self.last.take()) {
            (Call::Step, None) => self.last = Some(seen.before.clone()),
            (Call::StepBySweeps, Some(before)) => {
                assert_eq!(before, *seen.before);
                self.number += 1;
            }
            (call, last) => assert!(last.is_none() && *call != Call::StepBySweeps, "{call:?}"),
        }
    }
}

/// What a trace shows, counted.
#[derive(Debug, Default)]
struct Tally {
    pushes: usize,
    squashes: usize,
    falls: usize,
    wins: usize,
    deaths: usize,
    closings: usize,
    swept: usize,
    many_regions: usize,
    ties: usize,
    walks: usize,
    respawns: usize,
    levels: usize,
    overs: usize,
    breaches: usize,
    refusals: BTreeMap<u8, usize>,
}

impl Tally {
    fn see(&mut self, seen: &Seen) {
        let refusal = seen.outcome.refusal;
        *self.refusals.entry(refusal.number).or_default() += 1;
        if refusal != NONE {
            assert_eq!(seen.before, seen.after);
            return;
        }
        match (&seen.before.game, &seen.after.game) {
            (Game::Mine(before), Game::Mine(after)) => self.see_mine(seen, before, after),
            (Game::Cutter(before), Game::Cutter(after)) => self.see_cutter(seen, before, after),
            _ => {}
        }
        let same_call = !matches!(seen.call, Call::MineWho { .. } | Call::CutterWho { .. });
        if seen.before != seen.after && same_call && !matches!(seen.call, Call::Start(_)) {
            let checked = match &seen.after.game {
                Game::Mine(m) => check::mine(m),
                Game::Cutter(c) => check::cutter(c),
            };
            assert_eq!(checked, Ok(()), "after {:?}", seen.call);
        }
    }

    fn see_mine(&mut self, seen: &Seen, before: &Mine, after: &Mine) {
        if matches!(seen.call, Call::Move(_)) && before.px != after.px {
            let pushed = before.grid[after.py * W + after.px] == BOULDER;
            self.pushes += usize::from(pushed);
        }
        if *seen.call == Call::Gravity {
            let row = |m: &Mine, y: usize| {
                m.grid[y * W..][..W].iter().filter(|&&c| c == BOULDER || c == COIN).count()
            };
            self.falls += usize::from((0..H).any(|y| row(before, y) != row(after, y)));
        }
        self.squashes += usize::from(after.count < before.count && *seen.call != Call::Load);
        self.wins += usize::from(seen.outcome.answer == Answer::Won);
        self.deaths += usize::from(seen.outcome.answer == Answer::Dead);
        if *seen.call != Call::Load {
            let coins = |m: &Mine| m.coins as usize + m.count_of(COIN);
            assert_eq!(coins(before), coins(after), "coins, {:?}", seen.call);
            assert_eq!(before.count_of(BOULDER), after.count_of(BOULDER), "boulders");
        }
    }

    fn see_cutter(&mut self, seen: &Seen, before: &Cutter, after: &Cutter) {
        match seen.call {
            Call::Step if before.trailing && !after.trailing => {
                self.see_closing(before, after);
                assert_eq!(costs(seen), counted::step_player(before));
            }
            Call::StepBySweeps if before.trailing && !after.trailing => {
                self.swept += 1;
                closed_by_sweeps(before, after);
            }
            Call::StepEnemies => self.breaches += usize::from(!before.dead && after.dead),
            Call::Respawn => {
                self.respawns += 1;
                assert_eq!(costs(seen), counted::respawn(before));
            }
            Call::CutterPass { .. } => {
                self.overs += usize::from(seen.outcome.answer == Answer::Over);
                self.respawns += usize::from(before.dead && !after.dead && after.lives > 0);
                self.levels += usize::from(after.level == before.level + 1);
            }
            _ => {}
        }
    }

    fn see_closing(&mut self, before: &Cutter, after: &Cutter) {
        self.closings += 1;
        let entered = closes_at(before).expect("a step that closes");
        self.walks += usize::from((after.px, after.py) != entered);
        let regions = closed_by_sweeps(before, after);
        self.many_regions += usize::from(regions.len() > 48);
        let key = |region: &Region| (region.creatures, region.cells.len());
        let best = regions.iter().find(|region| region.fate == Fate::Kept).map(key);
        let as_good = regions.iter().take(48).filter(|region| Some(key(region)) == best);
        self.ties += usize::from(as_good.count() > 1);
    }
}

/// Cells searched and walked, as a result has them.
fn costs(seen: &Seen) -> (usize, usize) {
    let &[a, b, c, d] = seen.outcome.result.as_slice() else { panic!("two numbers of two bytes") };
    (u16::from_le_bytes([a, b]).into(), u16::from_le_bytes([c, d]).into())
}

/// Document 01's closing, found by sweeps: the same grid, the same creatures in the same order.
fn closed_by_sweeps(before: &Cutter, after: &Cutter) -> Vec<Region> {
    let Closing { regions, grid, movers, .. } = closing(before);
    assert!(after.grid == grid, "another grid");
    assert_eq!(after.enemies[..after.count], movers);
    assert_eq!((after.dx, after.dy), (before.dx, before.dy));
    assert!(!grid.contains(&BLACK) || cutter::on_border(after, after.px, after.py));
    regions
}

#[test]
fn random_traces_are_wide_and_well_formed() {
    let trace = random(SEED, SEQUENCES);
    let mut tally = Tally::default();
    let mut pairs = Pairs::default();
    let see = |seen: Seen| {
        tally.see(&seen);
        pairs.see(&seen);
    };
    let report = replay_seen(trace.as_slice(), see).expect("in memory");
    println!("{SEQUENCES} sequences of seed {SEED}: {} calls, {tally:?}", report.calls);
    println!("{} steps, each by sweeps as well", pairs.number);
    assert_eq!(report.differ, 0);
    assert!(report.calls > 50_000);
    for call in CALLS {
        assert!(headers(&trace).iter().any(|h| h[0] == call), "no call {call}");
    }
    let Tally { pushes, squashes, falls, wins, deaths, .. } = tally;
    assert!([pushes, squashes, falls, wins, deaths].iter().all(|&n| n > 20), "{tally:?}");
    let Tally { closings, many_regions, ties, walks, respawns, .. } = tally;
    assert!([closings, many_regions, ties, walks, respawns].iter().all(|&n| n > 10), "{tally:?}");
    let Tally { levels, overs, breaches, ref refusals, .. } = tally;
    assert!([levels, overs, breaches].iter().all(|&n| n > 20), "{tally:?}");
    assert!(tally.swept == closings && pairs.last.is_none() && pairs.number > 5_000, "{tally:?}");
    assert!(refusals.keys().eq(&REFUSALS) && refusals.values().all(|&n| n > 5), "{tally:?}");
}

/// The entries that a program's first lines tell of are where corners begin.
#[test]
fn the_entries_told_begin_corners() {
    for (program, corners) in corners::all() {
        let text = fs::read_to_string(format!("../crates/{program}/src/main.rt")).expect(program);
        let lines =
            text.lines().filter_map(|line| line.strip_prefix("//")?.trim().split_once("  "));
        let told: Vec<usize> = lines.filter_map(|(entry, _)| entry.parse().ok()).collect();
        assert!(told.len() > 9, "{program}: {told:?}");
        for entry in told {
            assert!(corners.names.iter().any(|&(begins, _)| begins == entry), "{program}: {entry}");
        }
        let number = format!(" {} corners", corners.names.len());
        assert!(text.contains(&number), "{program}:{number}");
    }
}
