//! `catcard_ui::canvas`: pixels that are lit or not.

pub mod canvas {
    /// Lit, the lightest of sixteen steps; the module takes 8 and above for lit.
    pub const INK: u8 = 15;
    /// Not lit.
    pub const PAPER: u8 = 0;

    pub trait Canvas {
        fn clear(&mut self);
        fn get(&self, x: usize, y: usize) -> u8;
        fn put(&mut self, x: usize, y: usize, value: u8);

        fn fill_rect(&mut self, x: usize, y: usize, w: usize, h: usize, value: u8) {
            for py in y..y + h {
                for px in x..x + w {
                    self.put(px, py, value);
                }
            }
        }
    }
}
