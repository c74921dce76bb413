//! The crates that the driver uses, as far as it uses them.

pub mod enumset {
    use core::marker::PhantomData;

    use crate::i2c::master::Event;

    /// A set of events.
    #[derive(Clone, Copy, PartialEq)]
    pub struct EnumSet<T> {
        members: u8,
        of: PhantomData<T>,
    }

    impl EnumSet<Event> {
        const fn of(members: u8) -> Self {
            Self {
                members,
                of: PhantomData,
            }
        }

        pub fn new() -> Self {
            Self::of(0)
        }

        pub fn all() -> Self {
            Event::EndDetect | Event::TxComplete
        }

        pub fn insert(&mut self, event: Event) {
            self.members |= event as u8;
        }

        pub fn is_disjoint(&self, other: Self) -> bool {
            self.members & other.members == 0
        }
    }

    impl core::ops::BitOr for Event {
        type Output = EnumSet<Event>;

        fn bitor(self, other: Event) -> EnumSet<Event> {
            EnumSet::of(self as u8 | other as u8)
        }
    }

    impl IntoIterator for EnumSet<Event> {
        type Item = Event;
        type IntoIter = core::iter::Flatten<core::array::IntoIter<Option<Event>, 2>>;

        fn into_iter(self) -> Self::IntoIter {
            [Event::EndDetect, Event::TxComplete]
                .map(|event| (self.members & event as u8 != 0).then_some(event))
                .into_iter()
                .flatten()
        }
    }
}

/// Only the asynchronous functions use this, and none of them is called.
pub mod embassy_futures {
    pub mod select {
        pub async fn select<A: Future, B: Future>(_first: A, _second: B) {
            unimplemented!("the asynchronous half is not run")
        }
    }

    pub async fn yield_now() {
        unimplemented!("the asynchronous half is not run")
    }
}
