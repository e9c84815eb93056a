//! Lists of an iterator's items, by loops of a few lines. For each `collect` into a `Vec`, and each
//! `extend` and `retain` of one, rustc compiles ten functions of std's again.
// A `for` over an iterator that is owned has a third more code than these.
#![allow(clippy::while_let_on_iterator)]

pub trait IntoList: Iterator + Sized {
    /// Returns the items as a list, as `collect` does.
    fn listed(mut self) -> Vec<Self::Item> {
        let mut list = Vec::new();
        while let Some(item) = self.next() {
            list.push(item);
        }
        list
    }
}

impl<I: Iterator> IntoList for I {}

pub trait AllListed {
    type Item;

    /// Returns what all items have as a list, or `None` where one has nothing.
    fn all_listed(self) -> Option<Vec<Self::Item>>;
}

impl<T, I: Iterator<Item = Option<T>>> AllListed for I {
    type Item = T;

    fn all_listed(mut self) -> Option<Vec<T>> {
        let mut list = Vec::new();
        while let Some(item) = self.next() {
            list.push(item?);
        }
        Some(list)
    }
}

pub trait PushAll {
    type Item;

    /// Adds the items to this list, as `extend` does.
    fn push_all(&mut self, items: impl IntoIterator<Item = Self::Item>);
}

impl<T> PushAll for Vec<T> {
    type Item = T;

    fn push_all(&mut self, items: impl IntoIterator<Item = T>) {
        let mut items = items.into_iter();
        while let Some(item) = items.next() {
            self.push(item);
        }
    }
}

pub trait Keep {
    type Item;

    /// Keeps the items of which this is true, in their order, as `retain` does.
    fn keep(&mut self, is_kept: impl FnMut(&Self::Item) -> bool);
}

impl<T> Keep for Vec<T> {
    type Item = T;

    fn keep(&mut self, mut is_kept: impl FnMut(&T) -> bool) {
        let mut kept = 0;
        for place in 0..self.len() {
            if is_kept(&self[place]) {
                self.swap(kept, place);
                kept += 1;
            }
        }
        self.truncate(kept);
    }
}

#[cfg(test)]
mod tests {
    use super::*;

    #[test]
    fn what_is_kept_stays_in_its_order() {
        for mask in 0..1u32 << 8 {
            let is_kept = |item: &u32| mask >> item & 1 == 1;
            let (mut here, mut there): (Vec<_>, Vec<_>) = ((0..8).collect(), (0..8).collect());
            here.keep(is_kept);
            there.retain(is_kept);
            assert_eq!(here, there);
        }
    }

    #[test]
    fn a_list_of_all_is_none_where_one_is_missing() {
        assert_eq!(
            ["1", "2"]
                .map(|it| it.parse().ok())
                .into_iter()
                .all_listed(),
            Some(vec![1, 2])
        );
        assert_eq!([Some(1), None].into_iter().all_listed(), None);
    }
}
