//! The original's pictures against document 01's 'The frame', pixel by pixel.

use oracle::games::{cutter, mine};
use oracle::make::{cutter_states, mine_states};
use oracle::rng::Rng;
use oracle::state::*;

const STATES: usize = 1000;
const DIRT_ART: [u8; 8] = [0xAA, 0x55, 0xAA, 0x55, 0xAA, 0x55, 0xAA, 0x55];
const WALL_ART: [u8; 8] = [0xFF, 0x88, 0x88, 0xFF, 0x22, 0x22, 0xFF, 0x88];
const BOULDER_ART: [u8; 8] = [0x3C, 0x7E, 0xFF, 0xFF, 0xFF, 0xFF, 0x7E, 0x3C];
const COIN_ART: [u8; 8] = [0x18, 0x24, 0x42, 0x81, 0x81, 0x42, 0x24, 0x18];
const EXIT_ART: [u8; 8] = [0xFF, 0x81, 0x81, 0x81, 0x81, 0x81, 0x81, 0xFF];
const OPEN_ART: [u8; 8] = [0xFF, 0xBD, 0xA5, 0x99, 0x99, 0xA5, 0xBD, 0xFF];
const PLAYER_ART: [u8; 8] = [0x18, 0x18, 0x3C, 0x7E, 0x18, 0x18, 0x24, 0x24];
const ENEMY_ART: [u8; 8] = [0x81, 0x5A, 0x3C, 0x7E, 0x7E, 0x3C, 0x5A, 0x81];

/// Byte x of page p holds rows 8p to 8p+7 of column x, lowest bit topmost.
fn in_frame(frame: &[u8; 1024], x: usize, y: usize) -> bool {
    frame[128 * (y / 8) + x] & (1 << (y % 8)) != 0
}

fn mine_lit(m: &Mine, x: usize, y: usize) -> bool {
    if y < 8 {
        return false;
    }
    let left = m.px.saturating_sub(8).min(8);
    let top = m.py.saturating_sub(3).min(7);
    let (tx, ty) = (left + x / 8, top + (y - 8) / 8);
    let lights = |art: [u8; 8]| art[y % 8] >> (7 - x % 8) & 1 == 1;
    let tile = match m.grid[ty * W + tx] {
        DIRT => lights(DIRT_ART),
        WALL => lights(WALL_ART),
        BOULDER => lights(BOULDER_ART),
        COIN => lights(COIN_ART),
        EXIT => lights(if m.coins >= m.needed { OPEN_ART } else { EXIT_ART }),
        _ => false,
    };
    let creature = m.enemies[..m.count].iter().any(|e| (e.x, e.y) == (tx, ty));
    tile || creature && lights(ENEMY_ART) || (m.px, m.py) == (tx, ty) && lights(PLAYER_ART)
}

fn cutter_lit(c: &Cutter, x: usize, y: usize) -> bool {
    if y == 0 && (0..c.lives as usize).any(|i| x == 2 + 3 * i) {
        return false;
    }
    let ground = c.grid[y / 2 * CW + x / 2] != BLACK;
    let at = |e: &Mover| (2 * usize::from(e.x), 2 * usize::from(e.y)) == (x, y);
    let ink = ground || c.enemies[..c.count].iter().any(at);
    ink != ((c.px, c.py) == (x / 2, y / 2))
}

#[test]
fn pictures_are_as_the_document_says() {
    let rng = &mut Rng::new(5);
    for _ in 0..STATES {
        let (m, c) = (mine_states::state(rng), cutter_states::state(rng));
        let (mine, cutter) = (mine::render(&m).0, cutter::render(&c));
        for y in 0..64 {
            for x in 0..128 {
                assert_eq!(in_frame(&mine, x, y), mine_lit(&m, x, y), "Mine ({x},{y})");
                assert_eq!(in_frame(&cutter, x, y), cutter_lit(&c, x, y), "Cutter ({x},{y})");
            }
        }
    }
}
