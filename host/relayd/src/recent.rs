//! The last events of one kind. One that comes again is counted, and its count told once a minute, so that neither somebody who goes on nor
//! a flood of made-up sources fills the log.

use crate::ledger::SLOTS;
use std::collections::VecDeque;

/// How many are kept: as many as the relay can have permissions, so that when all of them lapse, each peer that goes on is one event.
const KEPT: usize = 8 * SLOTS;
/// How many of them are shown.
const SHOWN: usize = 32;
/// How many new ones are told in the log in one second.
const TOLD: u64 = 20;
/// How often the count of a repeated one is told, and after what time one counts as new again, in seconds.
const REPEATED: u64 = 60;
const FORGOTTEN: u64 = 600;

/// What may come again.
pub trait Event: Clone {
    /// Whether this is the same as one that came before.
    fn repeats(&self, earlier: &Self) -> bool;
}

/// One that is kept, as it came last.
pub struct Kept<T> {
    pub event: T,
    /// The time of day at which it came last, and the relay's second.
    pub stamp: String,
    pub last: u64,
    /// How often it came.
    pub count: u64,
    untold: u64,
    told: u64,
}

/// All that are kept, in the order in which they came last.
pub struct Recent<T> {
    kept: VecDeque<Kept<T>>,
    second: u64,
    told: u64,
    /// New ones that were not told since there were too many.
    hushed: u64,
}

impl<T: Event> Recent<T> {
    /// None yet.
    pub fn new() -> Self {
        Recent {
            kept: VecDeque::new(),
            second: 0,
            told: 0,
            hushed: 0,
        }
    }

    /// Takes one in, and says whether it is to be told now.
    pub fn add(&mut self, now: u64, stamp: String, event: T) -> bool {
        // What comes often stands at the end.
        let place = self.kept.iter().rposition(|kept| event.repeats(&kept.event));
        let earlier = place.and_then(|place| self.kept.remove(place));
        let new = Kept {
            event,
            stamp,
            last: now,
            count: 1,
            untold: 0,
            told: now,
        };
        if let Some(earlier) = earlier.filter(|earlier| now < earlier.last + FORGOTTEN) {
            self.kept.push_back(Kept {
                count: earlier.count + 1,
                untold: earlier.untold + 1,
                told: earlier.told,
                ..new
            });
            return false;
        }
        if self.kept.len() == KEPT {
            self.kept.pop_front();
        }
        self.kept.push_back(new);
        self.may_tell(now)
    }

    /// Whether one more new one is told in this second.
    fn may_tell(&mut self, now: u64) -> bool {
        if self.second != now {
            (self.second, self.told) = (now, 0);
        }
        self.told += 1;
        self.hushed += u64::from(self.told > TOLD);
        self.told <= TOLD
    }

    /// Those that came last.
    pub fn last(&self) -> impl Iterator<Item = &Kept<T>> {
        self.kept.iter().skip(self.kept.len().saturating_sub(SHOWN))
    }

    /// The counts that are due, each with what came; and how many new ones were not told.
    pub fn due(&mut self, now: u64) -> (Vec<(T, u64)>, u64) {
        let mut due = Vec::new();
        for kept in &mut self.kept {
            if kept.untold > 0 && now >= kept.told + REPEATED {
                due.push((kept.event.clone(), std::mem::take(&mut kept.untold)));
                kept.told = now;
            }
        }
        let hushed = if now == self.second { 0 } else { std::mem::take(&mut self.hushed) };
        (due, hushed)
    }
}

#[cfg(test)]
mod tests {
    use super::*;

    /// A source and its port, which may change from one time to the next.
    #[derive(Clone, Debug, PartialEq)]
    struct Source(usize, u16);

    impl Event for Source {
        fn repeats(&self, earlier: &Self) -> bool {
            self.0 == earlier.0
        }
    }

    fn add(recent: &mut Recent<Source>, now: u64, source: usize, port: u16) -> bool {
        recent.add(now, format!("at {now}"), Source(source, port))
    }

    #[test]
    fn a_repeated_one_is_counted() {
        let mut recent = Recent::new();
        assert!(add(&mut recent, 0, 7, 1));
        for port in 2..39 {
            assert!(!add(&mut recent, 1, 7, port));
        }
        assert_eq!(recent.due(59).0, []);
        assert_eq!(recent.due(60).0, [(Source(7, 38), 37)]);
        assert_eq!(recent.due(200).0, []);
        let kept = recent.last().next().expect("it is kept");
        assert_eq!((kept.count, kept.last, kept.stamp.as_str()), (38, 1, "at 1"));
        assert!(!add(&mut recent, 600, 7, 1));
        assert!(add(&mut recent, 1200, 7, 1));
        assert_eq!(recent.last().map(|kept| kept.count).collect::<Vec<_>>(), [1]);
    }

    #[test]
    fn a_flood_of_sources_is_hushed() {
        let mut recent = Recent::new();
        let told = (0..2000).filter(|source| add(&mut recent, 5, *source, 1)).count();
        assert_eq!(told, 20);
        assert_eq!(recent.due(5).1, 0);
        assert_eq!(recent.due(6).1, 1980);
        assert_eq!(recent.due(7).1, 0);
        assert_eq!(recent.kept.len(), KEPT);
    }

    #[test]
    fn as_many_as_there_are_permissions_are_each_one_event() {
        let mut recent = Recent::new();
        let mut told = 0;
        for now in 0..60 {
            told += (0..512).filter(|source| add(&mut recent, now, *source, 1)).count();
        }
        assert_eq!(told, 20);
        let (due, hushed) = recent.due(60);
        assert!(due.len() == 512 && due.iter().all(|(_, count)| *count == 59) && hushed == 492);
    }

    #[test]
    fn those_that_came_last_are_shown() {
        let mut recent = Recent::new();
        for source in 0..40 {
            add(&mut recent, 0, source, 1);
        }
        add(&mut recent, 1, 3, 1);
        let shown: Vec<usize> = recent.last().map(|kept| kept.event.0).collect();
        assert_eq!(shown.len(), SHOWN);
        assert_eq!((shown[0], shown[31]), (9, 3));
    }
}
