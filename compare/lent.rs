// Lists to lend, and the memory that they are lent from.
use model::coder::Value;

const GUARDS: usize = 16;
/// So bytes are at an odd address, where no number begins: a caller in C may lend them from anywhere.
const BEFORE: usize = GUARDS + 1;
/// What stands around a list: all ones in a byte, so that a reader that goes past a payload finds 1 bits.
const GUARD: u8 = 0xff;

/// What a list holds before a call: at each place something else than next to it.
pub fn old<T: From<u8>>(length: usize) -> impl Iterator<Item = T> {
    (0..length).map(|place| (0xa5 ^ place as u8).into())
}

/// Items to lend, between guards, which a writer that goes past them would change.
pub struct Lent<T = u8>(Vec<T>);

impl<T: Copy + PartialEq + From<u8>> Lent<T> {
    pub fn new(items: &[T]) -> Self {
        let mut lent = Lent(Vec::new());
        lent.set(items.iter().copied());
        lent
    }

    pub fn set(&mut self, items: impl Iterator<Item = T>) {
        self.0.clear();
        self.0.resize(BEFORE, GUARD.into());
        self.0.extend(items);
        self.0.resize(self.0.len() + GUARDS, GUARD.into());
    }

    pub fn items(&self) -> &[T] {
        &self.0[BEFORE..self.0.len() - GUARDS]
    }

    pub fn items_mut(&mut self) -> &mut [T] {
        let end = self.0.len() - GUARDS;
        &mut self.0[BEFORE..end]
    }

    pub fn guards_stand(&self) -> bool {
        let (before, rest) = self.0.split_at(BEFORE);
        before.iter().chain(&rest[rest.len() - GUARDS..]).all(|&item| item == GUARD.into())
    }
}

pub fn lend<V: Value>(list: &[V]) -> Vec<V::Lent> {
    let mut lent = vec![V::Lent::default(); V::ITEMS * list.len()];
    lent.chunks_exact_mut(V::ITEMS).zip(list).for_each(|(items, &value)| V::put(value.into(), items));
    lent
}

/// Whether a list is lent as these items.
pub fn is_lent<V: Value>(list: &[V], lent: &[V::Lent]) -> bool {
    let mut values = lent.chunks_exact(V::ITEMS).zip(list);
    lent.len() == V::ITEMS * list.len() && values.all(|(items, &value)| V::of(items) == value)
}
