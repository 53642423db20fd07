//! A buffer or a session to lend, between guard elements that no call may change.

use crate::reference;
use chantspruce::Session;
use std::hint::black_box;

/// How many guard elements stand on each side: an odd number, so that the buffers are not aligned to more than an element.
const GUARD: usize = 61;

pub struct Guarded<T> {
    /// The guards before and after, all different, so that a value written beside the buffer changes most of them.
    guards: Vec<T>,
    /// The first guards, the buffer, the other guards.
    store: Vec<T>,
}

impl<T: Copy + PartialEq> Guarded<T> {
    /// `guard` makes an element of a byte, others of other bytes.
    pub fn new(guard: fn(u8) -> T) -> Self {
        let guards = (0..2 * GUARD as u8).map(|i| guard(i.wrapping_mul(73) ^ 0xC3)).collect();
        Guarded { guards, store: Vec::new() }
    }

    /// Takes the content over, with new guards around it.
    pub fn set(&mut self, content: &[T]) {
        self.store.clear();
        self.store.extend_from_slice(&self.guards[..GUARD]);
        self.store.extend_from_slice(content);
        self.store.extend_from_slice(&self.guards[GUARD..]);
    }

    /// The buffer without its guards. The compiler must not take it for unchanged where it is lent for reading.
    pub fn lend(&mut self) -> &mut [T] {
        let end = self.store.len() - GUARD;
        &mut black_box(&mut self.store)[GUARD..end]
    }

    /// Whether the buffer has this content, and its guards are as they were.
    pub fn holds(&self, content: &[T]) -> bool {
        let (before, rest) = black_box(&self.store).split_at(GUARD);
        let (inside, after) = rest.split_at(rest.len() - GUARD);
        inside == content && before == &self.guards[..GUARD] && after == &self.guards[GUARD..]
    }
}

/// A session to lend, with guards before and after it.
#[repr(C)]
pub struct GuardedSession {
    before: [usize; GUARD],
    session: Session,
    after: [usize; GUARD],
}

/// What its guards hold, all different.
fn guards(first: usize) -> [usize; GUARD] {
    core::array::from_fn(|i| (first + i).wrapping_mul(0x9E37_79B9_7F4A_7C15))
}

impl GuardedSession {
    pub fn new() -> GuardedSession {
        let none = [0; reference::LENGTH];
        let session = Session { rows: 0, columns: 0, grid: none, directions: none, south: none, north: none, east: none, west: none };
        GuardedSession { before: guards(1), session, after: guards(1 + GUARD) }
    }

    /// Takes a session over, with new guards around it.
    pub fn set(&mut self, from: &reference::Session) {
        let to = &mut self.session;
        (to.rows, to.columns) = (from.rows, from.columns);
        to.grid.copy_from_slice(&from.grid);
        to.directions.copy_from_slice(&from.directions);
        for (counters, from) in [&mut to.south, &mut to.north, &mut to.east, &mut to.west].into_iter().zip(&from.counters) {
            counters.copy_from_slice(from);
        }
        (self.before, self.after) = (guards(1), guards(1 + GUARD));
    }

    pub fn lend(&mut self) -> &mut Session {
        &mut black_box(self).session
    }

    /// Whether it is this session, and its guards are as they were.
    pub fn holds(&self, wanted: &reference::Session) -> bool {
        let GuardedSession { before, session, after } = black_box(self);
        let counters = [&session.south, &session.north, &session.east, &session.west];
        (session.rows, session.columns) == (wanted.rows, wanted.columns)
            && session.grid == *wanted.grid
            && session.directions == *wanted.directions
            && counters.iter().zip(&wanted.counters).all(|(a, b)| a[..] == b[..])
            && *before == guards(1)
            && *after == guards(1 + GUARD)
    }
}
