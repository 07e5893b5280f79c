//! Document 02 (ix): which creature is wrong, and how.

use oracle::calls::Call;
use oracle::check::{self, Refusal};
use oracle::make::{battery, corners, cutter_states, mine_states};
use oracle::replay::{Seen, replay_seen};
use oracle::rng::Rng;
use oracle::state::*;

const STATES: usize = 200_000;

/// Every fault of a mine's creatures, in any order.
fn mine_faults(m: &Mine) -> Vec<Refusal> {
    if m.count > ENEMIES {
        return vec![Refusal::at(31, 0)];
    }
    let mut faults = Vec::new();
    for i in 0..ENEMIES {
        let Enemy { x, y, dir } = m.enemies[i];
        let on_grid = x < W && y < H;
        let wrong = [
            (32, i < m.count && !on_grid),
            (33, i < m.count && on_grid && m.grid[y * W + x] != EMPTY),
            (34, i < m.count && dir > 3),
            (35, i < m.count && (0..i).any(|j| m.enemies[j].x == x && m.enemies[j].y == y)),
            (36, i >= m.count && (x, y, dir) != (0, 0, 0)),
        ];
        faults.extend(wrong.into_iter().filter(|&(_, is)| is).map(|(n, _)| Refusal::at(n, i)));
    }
    faults
}

/// The same of Cutter's.
fn cutter_faults(c: &Cutter) -> Vec<Refusal> {
    if c.count > MOVERS {
        return vec![Refusal::at(31, 0)];
    }
    let mut faults = Vec::new();
    for i in 0..MOVERS {
        let Mover { x, y, vx, vy } = c.enemies[i];
        let on_grid = x < 64 && y < 32;
        let wrong = [
            (32, i < c.count && !on_grid),
            (33, i < c.count && on_grid && c.grid[usize::from(y) * CW + usize::from(x)] != BLACK),
            (34, i < c.count && (vx.abs_diff(0) != 1 || vy.abs_diff(0) != 1)),
            (36, i >= c.count && (x, y, vx, vy) != (0, 0, 0, 0)),
        ];
        faults.extend(wrong.into_iter().filter(|&(_, is)| is).map(|(n, _)| Refusal::at(n, i)));
    }
    faults
}

/// Whether document 01's 3 was not given: the whole of its check of creatures.
fn mine_right(m: &Mine) -> bool {
    let Some((used, rest)) = m.enemies.split_at_checked(m.count) else { return false };
    let stands = |e: &Enemy| e.x < W && e.y < H && m.grid[e.y * W + e.x] == EMPTY && e.dir < 4;
    let alone = |(i, e): (usize, &Enemy)| used[..i].iter().all(|o| (o.x, o.y) != (e.x, e.y));
    used.iter().all(stands)
        && used.iter().enumerate().all(alone)
        && rest.iter().all(|e| *e == Enemy::default())
}

/// The same of Cutter's.
fn cutter_right(c: &Cutter) -> bool {
    let Some((used, rest)) = c.enemies.split_at_checked(c.count) else { return false };
    let unit = |v: i8| v == -1 || v == 1;
    let stands = |e: &Mover| {
        let (x, y) = (usize::from(e.x), usize::from(e.y));
        x < CW && y < CH && c.grid[y * CW + x] == BLACK && unit(e.vx) && unit(e.vy)
    };
    used.iter().all(stands) && rest.iter().all(|e| *e == Mover::default())
}

/// The one that is given: by creature, in one creature by number, those of slots last.
fn first(faults: &[Refusal]) -> Option<Refusal> {
    faults.iter().copied().min_by_key(|fault| (fault.number == 36, fault.at, fault.number))
}

fn spoilt_place(rng: &mut Rng, size: usize) -> usize {
    rng.pick(&[0, size - 1, size, 255, 256, 1 << 32, usize::MAX, size / 2, 1])
}

fn spoil_enemy(m: &mut Mine, rng: &mut Rng) {
    let (i, j) = (rng.below(ENEMIES), rng.below(ENEMIES));
    match rng.below(6) {
        0 => m.enemies[i].x = spoilt_place(rng, W),
        1 => m.enemies[i].y = spoilt_place(rng, H),
        2 => m.enemies[i].dir = rng.pick(&[0, 3, 4, 128, 255]),
        3 => (m.enemies[i].x, m.enemies[i].y) = (m.enemies[j].x, m.enemies[j].y),
        4 => m.enemies[i] = Enemy::default(),
        _ => m.count = rng.pick(&[0, 1, 7, 8, 9, 255, 256, usize::MAX, i]),
    }
}

fn spoil_mover(c: &mut Cutter, rng: &mut Rng) {
    let (i, j) = (rng.below(MOVERS), rng.below(MOVERS));
    match rng.below(6) {
        0 => c.enemies[i].x = rng.pick(&[0, 1, 62, 63, 64, 65, 128, 255]),
        1 => c.enemies[i].y = rng.pick(&[0, 1, 30, 31, 32, 33, 128, 255]),
        2 => c.enemies[i].vx = rng.pick(&[0, 1, -1, 2, -2, 127, -128]),
        3 => c.enemies[i].vy = rng.pick(&[0, 1, -1, 2, -2, 127, -128]),
        4 => c.enemies[i] = c.enemies[j],
        _ => c.count = rng.pick(&[0, 1, 15, 16, 17, 255, 256, usize::MAX, i]),
    }
}

/// On states whose cells, player and numbers are right, against all faults and the first of them:
/// a state with a fault gets it, and no other is refused.
#[test]
fn random_states() {
    let rng = &mut Rng::new(9);
    let mut given = [[0; 6]; 2];
    let mut several = 0;
    let mut count = |game: usize, checked: Result<(), Refusal>, faults: &[Refusal]| {
        assert_eq!(checked.err(), first(faults), "{faults:?}");
        several += usize::from(faults.len() > 1);
        if let Err(refusal) = checked {
            given[game][usize::from(refusal.number) - 31] += 1;
        }
    };
    let (mut mine, mut cutter) = (mine_states::state(rng), cutter_states::state(rng));
    for i in 0..STATES {
        if i % 20 == 0 {
            (mine, cutter) = (mine_states::state(rng), cutter_states::state(rng));
        }
        let (mut m, mut c) = (mine.clone(), cutter.clone());
        for _ in 0..rng.below(4) {
            spoil_enemy(&mut m, rng);
            spoil_mover(&mut c, rng);
        }
        count(0, check::mine(&m), &mine_faults(&m));
        count(1, check::cutter(&c), &cutter_faults(&c));
        assert_eq!(check::mine(&m).is_ok(), mine_right(&m), "3 before");
        assert_eq!(check::cutter(&c).is_ok(), cutter_right(&c), "3 before");
    }
    println!("{STATES} states of each game: {given:?}, {several} with several faults");
    assert!(given[0].iter().all(|&n| n > 1000) && several > 10_000, "{given:?}");
    assert!([0, 1, 2, 3, 5].iter().all(|&n| given[1][n] > 1000) && given[1][4] == 0, "{given:?}");
}

/// Each corner of `replay_refused` has the refusal of its state in every call, and every call that
/// takes a state is there.
#[test]
fn the_corners_through_every_call() {
    let corners = corners::refused();
    let mut seen: Vec<(usize, Refusal)> = Vec::new();
    let mut numbers = [[0; 37]; 2];
    let see = |s: Seen| {
        let (refusal, game) = match &s.before.game {
            Game::Mine(m) => (check::mine(m), 0),
            Game::Cutter(c) => (check::cutter(c), 1),
        };
        let refusal = refusal.expect_err("an ill-formed state");
        assert_eq!(s.outcome.refusal, refusal, "{:?}", s.call);
        assert_eq!(s.before, s.after);
        numbers[game][usize::from(refusal.number)] += 1;
        seen.push((s.entry, refusal));
    };
    replay_seen(corners.trace.bytes.as_slice(), see).expect("in memory");
    let ends = corners.names.iter().skip(1).map(|&(entry, _)| entry).chain([usize::MAX]);
    for ((from, name), to) in corners.names.iter().zip(ends) {
        let calls = seen.iter().filter(|(entry, _)| (*from..to).contains(entry)).count();
        // Twelve of a battery, and the step by sweeps.
        assert_eq!(calls, if name.starts_with("Mine") { 8 } else { 13 }, "{name}");
    }
    println!("{} corners, {numbers:?}", corners.names.len());
    for (name, expected) in [
        ("Mine: 34 in creature 1, 35 in creature 2", (34, 1)),
        ("Mine: 35 in creature 1, 34 in creature 2", (35, 1)),
        ("Mine: 34 and 35 in creature 1", (34, 1)),
        ("Mine: count 9, rubbish behind", (31, 0)),
        ("Mine: count 255, rubbish behind", (31, 0)),
        ("Mine: 35 in creature 2, and slot 3", (35, 2)),
        ("Mine: slots 5 and 7", (36, 5)),
        ("Cutter: one of three at (64,31)", (32, 1)),
        ("Cutter: one of three at (255,20)", (32, 1)),
        ("Cutter: 33 in the last of sixteen", (33, 15)),
        ("Cutter: count 255, rubbish behind", (31, 0)),
    ] {
        let (entry, _) = corners.names.iter().find(|(_, other)| other == name).expect(name);
        let (_, refusal) = seen.iter().find(|(at, _)| *at == entry + 1).expect(name);
        assert_eq!((refusal.number, refusal.at), expected, "{name}");
    }
    let every = |game: usize, given: &[usize]| given.iter().all(|&n| numbers[game][n] > 20);
    assert!(every(0, &[1, 2, 4, 31, 32, 33, 34, 35, 36]), "{:?}", numbers[0]);
    assert!(every(1, &[1, 2, 4, 31, 32, 33, 34, 36]), "{:?}", numbers[1]);
}

/// The calls of a battery are all that take a state, each kind at least once.
#[test]
fn a_battery_has_every_call() {
    let kinds = |calls: &[Call]| {
        let kind = |call: &Call| format!("{call:?}").split([' ', '(']).next().map(str::to_string);
        let mut kinds: Vec<_> = calls.iter().filter_map(kind).collect();
        kinds.sort();
        kinds.dedup();
        kinds
    };
    let pace = Pace::default();
    let mine = ["Gravity", "MinePass", "MinePicture", "Move", "MoveEnemies"];
    assert_eq!(kinds(&battery::mine(&pace, 4)), mine);
    let rng = &mut Rng::new(2);
    let cutter = kinds(&battery::cutter(&cutter_states::state(rng), &pace, 4));
    let all = "CutterPass CutterPicture Direction Ground NewLevel Respawn Step StepEnemies";
    assert_eq!(cutter.join(" "), all);
}

#[test]
fn in_words() {
    for (refusal, words) in [
        (Refusal::of(4), "4"),
        (Refusal::of(5), "5"),
        (Refusal::at(31, 0), "31 at 0"),
        (Refusal::at(36, 15), "36 at 15"),
    ] {
        assert_eq!(refusal.to_string(), words);
    }
}
