//! Memory lent between guards, so that a write outside of it is seen.

const GUARD: usize = 8;

pub struct Guarded<T> {
    all: Vec<T>,
    guard: T,
}

impl<T: Copy + PartialEq> Guarded<T> {
    pub fn new(content: &[T], guard: T) -> Guarded<T> {
        let mut all = vec![guard; GUARD];
        all.extend_from_slice(content);
        all.resize(content.len() + 2 * GUARD, guard);
        Guarded { all, guard }
    }

    pub fn lent(&mut self) -> &mut [T] {
        let end = self.all.len() - GUARD;
        &mut self.all[GUARD..end]
    }

    /// Copies the content back, and tells whether the guards are whole.
    pub fn returned(mut self, content: &mut [T]) -> bool {
        content.copy_from_slice(self.lent());
        let end = self.all.len() - GUARD;
        self.all[..GUARD].iter().chain(&self.all[end..]).all(|&word| word == self.guard)
    }
}
