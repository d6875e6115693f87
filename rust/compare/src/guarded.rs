//! Lent memory with a margin on both sides that no call may touch.

const MARGIN: usize = 32;

/// Elements between two margins.
#[derive(Clone, Debug)]
pub struct Guarded<T> {
    whole: Vec<T>,
    fence: T,
}

impl<T: Copy + PartialEq> Guarded<T> {
    /// These elements, with margins of `fence`.
    pub fn new(elements: &[T], fence: T) -> Guarded<T> {
        let mut whole = vec![fence; MARGIN];
        whole.extend_from_slice(elements);
        whole.extend([fence; MARGIN]);
        Guarded { whole, fence }
    }

    /// Whether the margins are as they were.
    pub fn is_intact(&self) -> bool {
        let end = self.whole.len() - MARGIN;
        let margins = self.whole[..MARGIN].iter().chain(&self.whole[end..]);
        margins.into_iter().all(|element| *element == self.fence)
    }
}

impl<T> std::ops::Deref for Guarded<T> {
    type Target = [T];

    fn deref(&self) -> &[T] {
        &self.whole[MARGIN..self.whole.len() - MARGIN]
    }
}

impl<T> std::ops::DerefMut for Guarded<T> {
    fn deref_mut(&mut self) -> &mut [T] {
        let end = self.whole.len() - MARGIN;
        &mut self.whole[MARGIN..end]
    }
}
