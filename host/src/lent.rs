//! A part that is lent to the engine, between guards that no call may touch.

const GUARD: usize = 16;

pub trait Word: Copy + PartialEq {
    const MARK: Self;
}

impl Word for u8 {
    const MARK: u8 = 0xA5;
}

impl Word for u16 {
    const MARK: u16 = 0xA5C3;
}

impl Word for u32 {
    const MARK: u32 = 0xA5C3_5A3C;
}

impl Word for i32 {
    const MARK: i32 = 0x5A3C_A5C3;
}

impl Word for u64 {
    const MARK: u64 = 0xA5C3_5A3C_C3A5_3C5A;
}

#[derive(Clone)]
pub struct Lent<T> {
    cells: Vec<T>,
}

impl<T: Word> Lent<T> {
    pub fn new(len: usize, value: T) -> Lent<T> {
        let mut cells = vec![T::MARK; len + 2 * GUARD];
        cells[GUARD..GUARD + len].fill(value);
        Lent { cells }
    }

    pub fn marked(len: usize) -> Lent<T> {
        Lent::new(len, T::MARK)
    }

    pub fn part(&self) -> &[T] {
        &self.cells[GUARD..self.cells.len() - GUARD]
    }

    pub fn part_mut(&mut self) -> &mut [T] {
        let end = self.cells.len() - GUARD;
        &mut self.cells[GUARD..end]
    }

    pub fn is_guarded(&self) -> bool {
        let end = self.cells.len() - GUARD;
        self.cells[..GUARD].iter().chain(&self.cells[end..]).all(|c| *c == T::MARK)
    }
}
