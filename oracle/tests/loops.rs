//! The passes, as written out here, against the original's own loops: the same keys, clock
//! readings and draws, compared event by event, each picture byte for byte.

use oracle::calls::cutter::level_due;
use oracle::games::{Answer, block_cutter, block_mine, cutter, mine};
use oracle::make::cutter_play::CutterPlayer;
use oracle::make::cutter_states::draws;
use oracle::make::mine_play::MinePlayer;
use oracle::make::readings::{ENEMY, GRAVITY, MOVER, STEP};
use oracle::rng::Rng;
use oracle::stand_ins::device::{self, CANCEL, Event, Turn};
use oracle::state::{Cutter, KEYS, Mine, Pace};

const ROUNDS: usize = 2000;
const MINE_TURNS: usize = 160;
const CUTTER_TURNS: usize = 300;
const NOISES: [usize; 3] = [12, 100, 5000];

/// What happened over all rounds.
#[derive(Debug, Default)]
struct Tally {
    pictures: usize,
    turns: usize,
    won: usize,
    dead: usize,
    over: usize,
    quit: usize,
    respawns: usize,
    levels: usize,
    /// Passes on a state both dead and won.
    both: usize,
}

impl Tally {
    fn end(&mut self, answer: Answer) {
        match answer {
            Answer::GoingOn => {}
            Answer::Won => self.won += 1,
            Answer::Dead => self.dead += 1,
            Answer::Over => self.over += 1,
            Answer::Quit => self.quit += 1,
        }
    }
}

/// A turn's keys: the command's, once in `noise` among others, rarely the one that quits.
fn keys(command: Option<u8>, noise: usize, rng: &mut Rng) -> Vec<u8> {
    let mut keys: Vec<u8> = command.map(|dir| KEYS[usize::from(dir)]).into_iter().collect();
    if rng.one_in(noise) {
        keys.insert(0, rng.pick(&[0, 1, 2, 3, 4, 6, 5, 8, 7, 9]));
    }
    if rng.one_in(noise) {
        keys.push(rng.pick(&[0, 4, 6, 5, 8, 7, 9]));
    }
    if rng.one_in(1000) {
        keys.extend([CANCEL, 9]);
    }
    keys
}

fn mine_picture(m: &Mine) -> Event {
    let (pixels, texts) = mine::render(m);
    Event::Picture(Box::new(pixels), texts)
}

fn cutter_picture(c: &Cutter) -> Event {
    Event::Picture(Box::new(cutter::render(c)), Vec::new())
}

/// Where the real loop and the written-out one part, if they do.
fn assert_same(round: usize, real: &[Event], ours: &[Event]) {
    let parted = real.iter().zip(ours).position(|(a, b)| a != b);
    assert_eq!(parted, None, "round {round} parts at this event");
    assert_eq!(real.len(), ours.len(), "round {round} has more events");
}

fn mine_round(rng: &mut Rng, tally: &mut Tally) -> (u32, Vec<Turn>, Vec<Event>) {
    let start = rng.word() as u32;
    let player = MinePlayer::new(rng);
    let noise = rng.pick(&NOISES);
    let moves_per_tick = rng.pick(&[1, 2, 3, 8]);
    let mut m = mine::load();
    let mut pace = Pace::start(start);
    let (mut time, mut turns, mut events) = (start, Vec::new(), vec![mine_picture(&m)]);
    for _ in 0..MINE_TURNS {
        let keys = keys(Some(player.command(&m, rng)), noise, rng);
        let advance = rng.pick(&[GRAVITY, GRAVITY - 1, ENEMY, 0]) / moves_per_tick;
        time = time.wrapping_add(advance);
        let before = pace;
        let answer = mine::pass(&mut m, &keys, time, &mut pace);
        tally.end(answer);
        match answer {
            Answer::Won => events.push(Event::Message("You win!: exit reached".into())),
            Answer::Dead => events.push(Event::Message("Game over: you were caught".into())),
            _ => turns.push(Turn { keys: keys.clone(), time }),
        }
        if answer != Answer::GoingOn {
            break;
        }
        events.push(Event::Rest);
        if pace != before || keys.iter().any(|key| KEYS.contains(key)) {
            events.push(mine_picture(&m));
        }
    }
    (start, turns, events)
}

#[test]
fn block_mine_is_its_passes() {
    let mut tally = Tally::default();
    for round in 0..ROUNDS {
        let rng = &mut Rng::new(round as u64);
        let (start, turns, ours) = mine_round(rng, &mut tally);
        let (real, _) = device::run(start, &turns, &[], block_mine);
        assert_same(round, &real, &ours);
        tally.turns += turns.len();
        tally.pictures += real.iter().filter(|e| matches!(e, Event::Picture(..))).count();
    }
    println!("{ROUNDS} rounds of Mine: {tally:?}");
    assert!(tally.pictures > 100_000, "{tally:?}");
    assert!(tally.won > 100 && tally.dead > 300 && tally.quit > 100, "{tally:?}");
}

/// A round with these draws at its start. The keys and advances of `plan` come first, then
/// the player goes on.
fn cutter_round(
    rng: &mut Rng,
    tally: &mut Tally,
    mut drawn: Vec<u8>,
    plan: &[(u8, u32)],
) -> (u32, Vec<Turn>, Vec<u8>, Vec<Event>) {
    let start = rng.word() as u32;
    let player = CutterPlayer::new(rng);
    let noise = rng.pick(&NOISES);
    let mut c = cutter::new_round(&drawn);
    let mut pace = Pace::start(start);
    let (mut time, mut turns) = (start, Vec::new());
    let bounds = |draws: &[u8]| {
        let bounds = [62, 30, 2, 2].into_iter().cycle().take(draws.len());
        bounds.map(Event::Drawn).collect::<Vec<_>>()
    };
    let mut events = bounds(&drawn);
    events.push(cutter_picture(&c));
    // What a death or a win still brings comes before the next key.
    while turns.len() < CUTTER_TURNS || c.dead || c.won_level {
        let (keys, advance) = match plan.get(turns.len()) {
            Some(&(key, advance)) => (vec![key], advance),
            None => {
                let keys = keys(player.command(&c, rng), noise, rng);
                (keys, rng.pick(&[STEP, STEP, STEP + 1, STEP - 1, MOVER, 0]))
            }
        };
        let draws = if level_due(&c) { draws(c.level + 1, rng) } else { Vec::new() };
        let next = time.wrapping_add(advance);
        let (was, before) = (c.clone(), pace);
        let answer = cutter::pass(&mut c, &keys, &draws, next, &mut pace);
        tally.end(answer);
        if answer == Answer::Over {
            events.push(Event::Message("Game over: line was cut".into()));
            break;
        }
        if was.dead || was.won_level {
            // Neither keys nor clock are read: the turn is not used up.
            assert_eq!(pace, before);
            tally.respawns += usize::from(was.dead);
            tally.levels += usize::from(!was.dead);
            tally.both += usize::from(was.dead && was.won_level);
            events.extend(bounds(&draws));
            events.push(cutter_picture(&c));
            drawn.extend(draws);
            continue;
        }
        time = next;
        turns.push(Turn { keys, time });
        if answer == Answer::Quit {
            break;
        }
        events.push(Event::Rest);
        if pace != before {
            events.push(cutter_picture(&c));
        }
    }
    (start, turns, drawn, events)
}

/// Plays a round both ways and compares.
fn compare_cutter(round: usize, tally: &mut Tally, drawn: Vec<u8>, plan: &[(u8, u32)]) {
    let rng = &mut Rng::new(round as u64);
    let (start, turns, draws, ours) = cutter_round(rng, tally, drawn, plan);
    let (real, undrawn) = device::run(start, &turns, &draws, block_cutter);
    assert_same(round, &real, &ours);
    assert_eq!(undrawn, 0, "round {round} leaves draws");
    tally.turns += turns.len();
    tally.pictures += real.iter().filter(|e| matches!(e, Event::Picture(..))).count();
}

#[test]
fn block_cutter_is_its_passes() {
    let mut tally = Tally::default();
    for round in 0..ROUNDS {
        let drawn = draws(1, &mut Rng::new(round as u64 + 1_000_000));
        compare_cutter(round, &mut tally, drawn, &[]);
    }
    println!("{ROUNDS} rounds of Cutter: {tally:?}");
    assert!(tally.pictures > 100_000, "{tally:?}");
    assert!(tally.over > 300 && tally.quit > 100, "{tally:?}");
    assert!(tally.respawns > 1000 && tally.levels > 100, "{tally:?}");
}

/// A cut down column 17, which leaves 480 black cells on the left, then 16 cells of line up
/// from the bottom at this column: with the last of them 464 are left.
fn sixteen_columns(column: usize) -> Vec<(u8, u32)> {
    let way = [vec![7; 15], vec![8; 31], vec![7; 17 - column], vec![5; 16]].concat();
    way.into_iter().map(|key| (key, STEP)).collect()
}

/// Whether the plan's last pass, and none before, both wins and kills.
fn wins_and_dies(drawn: &[u8], plan: &[(u8, u32)]) -> bool {
    let (mut c, mut pace) = (cutter::new_round(drawn), Pace::default());
    let mut time = 0;
    for (i, &(key, advance)) in plan.iter().enumerate() {
        time += advance;
        cutter::pass(&mut c, &[key], &[], time, &mut pace);
        if c.dead || c.won_level {
            return c.dead && c.won_level && i + 1 == plan.len();
        }
    }
    false
}

#[test]
fn dead_and_won_at_once_in_the_loop() {
    let mut tally = Tally::default();
    let mut rounds = 0;
    for column in 2..16 {
        let plan = sixteen_columns(column);
        for seed in 0..400 {
            let drawn = draws(1, &mut Rng::new(seed));
            if wins_and_dies(&drawn, &plan) {
                compare_cutter(rounds, &mut tally, drawn, &plan);
                rounds += 1;
            }
        }
    }
    println!("{rounds} rounds dead and won at once: {tally:?}");
    assert!(rounds > 10 && tally.both >= rounds, "{rounds} rounds, {tally:?}");
}
