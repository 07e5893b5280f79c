//! Document 02 (iii): who is there, and how many.

use oracle::calls::Call;
use oracle::check::NONE;
use oracle::games::mine;
use oracle::make::{corners, mine_states};
use oracle::replay::{Seen, replay_seen};
use oracle::rng::Rng;
use oracle::state::*;

const STATES: usize = 500;

/// Index and number of a question's result; `None` for nobody.
fn read(result: &[u8]) -> Option<[u64; 2]> {
    let word = |at: usize| result[at..at + 8].try_into().map(u64::from_le_bytes).unwrap();
    assert!(matches!(result.len(), 0 | 16));
    (!result.is_empty()).then(|| [word(0), word(8)])
}

fn asked(call: Call) -> Option<[u64; 2]> {
    let game = Game::Mine(Box::new(mine::load()));
    let outcome = State { game, pace: Pace::default() }.make(&call).expect("a call of any game");
    assert_eq!(outcome.refusal, NONE);
    read(&outcome.result)
}

#[test]
fn first_and_last_of_each_length() {
    for n in [1, 8, 9, 16, 17, 40] {
        let last = n as u64 - 1;
        for (places, expected) in [
            (vec![], None),
            (vec![0], Some([0, 1])),
            (vec![n - 1], Some([last, 1])),
            (vec![0, n - 1], Some([0, if n == 1 { 1 } else { 2 }])),
            ((0..n).collect(), Some([0, n as u64])),
            ((n / 2..n).collect(), Some([n as u64 / 2, n as u64 - n as u64 / 2])),
        ] {
            let mut enemies = vec![Enemy { x: 7, y: 8, dir: 255 }; n];
            let mut movers = vec![Mover { x: 8, y: 7, vx: 0, vy: -128 }; n];
            for i in places {
                enemies[i].y = 7;
                movers[i].x = 7;
            }
            assert_eq!(asked(Call::MineWho { x: 7, y: 7, list: enemies }), expected);
            assert_eq!(asked(Call::CutterWho { x: 7, y: 7, list: movers }), expected);
        }
    }
    assert_eq!(asked(Call::MineWho { x: 0, y: 0, list: Vec::new() }), None);
    assert_eq!(asked(Call::CutterWho { x: 0, y: 0, list: Vec::new() }), None);
}

#[test]
fn in_a_well_formed_mine_never_above_one() {
    let rng = &mut Rng::new(3);
    let mut found = 0;
    for _ in 0..STATES {
        let m = mine_states::state(rng);
        let list = m.enemies[..m.count].to_vec();
        for (x, y) in (0..CELLS).map(|cell| (cell % W, cell / W)) {
            let expected = mine::enemy_at(&m, x, y).map(|index| [index as u64, 1]);
            assert_eq!(asked(Call::MineWho { x, y, list: list.clone() }), expected);
            found += usize::from(expected.is_some());
        }
    }
    println!("{STATES} mines, {found} creatures found");
    assert!(found > 1000);
}

#[test]
fn the_corners_hold_what_they_name() {
    let corners = corners::corners();
    let answers = |name: &str| {
        let at = corners.names.iter().position(|(_, n)| n == name).expect(name);
        let (from, to) = (corners.names[at].0, corners.names[at + 1].0);
        let mut answers = Vec::new();
        let see = |seen: Seen| {
            if (from..to).contains(&seen.entry) {
                answers.push(read(&seen.outcome.result));
            }
        };
        replay_seen(corners.trace.bytes.as_slice(), see).expect("in memory");
        answers
    };
    assert_eq!(answers("question of Mine: two bad creatures on one cell"), [Some([1, 2])]);
    assert_eq!(answers("question of Cutter: three on one cell"), [Some([1, 3])]);
    for game in ["Mine", "Cutter"] {
        let answers = answers(&format!("question of {game}: nobody, first, last, both, all"));
        assert_eq!((answers.len(), answers[..5].to_vec()), (30, vec![None; 5]));
        let forty = [None, Some([0, 1]), Some([39, 1]), Some([0, 2]), Some([0, 40])];
        assert_eq!(answers[25..], forty);
    }
}
