//! The corners of the question: who is there, and how many.

use super::corners::Corners;
use super::cutter_grounds::fresh;
use super::{cutter_variations, mine_variations};
use crate::calls::Call;
use crate::state::*;

pub fn corners(out: &mut Corners) {
    let mine = mine_variations::base();
    let cutter = cutter_variations::base();
    let list = mine.enemies.to_vec();
    let who = |x, y, n: usize| Call::MineWho { x, y, list: list[..n].to_vec() };
    let twice = list.iter().chain(&list).copied().collect();
    let questions = vec![
        who(7, 7, 8),
        who(11, 3, 3),
        who(11, 3, 2),
        who(0, 0, 8),
        who(usize::MAX, 7, 8),
        who((1 << 32) + 7, 7, 8),
        who(7, 7, 0),
        Call::MineWho { x: 9, y: 9, list: twice },
    ];
    out.mine("question of Mine", &mine, questions);

    let list = cutter.enemies.to_vec();
    let who = |x, y, n: usize| Call::CutterWho { x, y, list: list[..n].to_vec() };
    let long = vec![Mover { x: 255, y: 255, vx: -128, vy: 127 }; 300];
    let questions = vec![
        who(10, 10, 16),
        who(20, 20, 16),
        who(266, 10, 16),
        who(10, 10, 0),
        Call::CutterWho { x: 255, y: 255, list: long.clone() },
        Call::CutterWho { x: 511, y: 255, list: long },
    ];
    out.cutter("question of Cutter", &cutter, questions);

    let bad = Enemy { x: 99, y: usize::MAX, dir: 255 };
    let list = [Enemy { y: 99, ..bad }, bad, Enemy { dir: 9, ..bad }].to_vec();
    let twice = vec![Call::MineWho { x: 99, y: usize::MAX, list }];
    out.mine("question of Mine: two bad creatures on one cell", &mine, twice);
    let crowd = [(20, 20, 1, 1), (10, 10, 1, 1), (10, 10, -1, 1), (10, 20, 1, 1), (10, 10, 1, 1)];
    let crowd = fresh().peopled(&crowd);
    let list = crowd.enemies[..crowd.count].to_vec();
    let thrice = vec![Call::CutterWho { x: 10, y: 10, list }];
    out.cutter("question of Cutter: three on one cell", &crowd, thrice);

    let enemy = |there: bool, i: usize| Enemy { x: 7, y: if there { 7 } else { 8 }, dir: i as u8 };
    let calls = lists(enemy).map(|list| Call::MineWho { x: 7, y: 7, list });
    out.mine("question of Mine: nobody, first, last, both, all", &mine, calls.collect());
    let mover =
        |there: bool, i: usize| Mover { x: if there { 7 } else { 8 }, y: 7, vx: 1, vy: i as i8 };
    let calls = lists(mover).map(|list| Call::CutterWho { x: 7, y: 7, list });
    out.cutter("question of Cutter: nobody, first, last, both, all", &cutter, calls.collect());
}

/// Lists on both sides of the numbers of slots, with nobody, the first, the last, both or all there.
fn lists<T>(creature: impl Fn(bool, usize) -> T) -> impl Iterator<Item = Vec<T>> {
    type There = fn(usize, usize) -> bool;
    let there: [There; 5] = [
        |_, _| false,
        |i, _| i == 0,
        |i, last| i == last,
        |i, last| i == 0 || i == last,
        |_, _| true,
    ];
    let each = [0, 8, 9, 16, 17, 40].into_iter().flat_map(move |n| there.map(|there| (n, there)));
    each.map(move |(n, there)| (0..n).map(|i| creature(there(i, n - 1), i)).collect())
}
