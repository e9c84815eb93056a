//! What a closure is told, noted for the test.

use std::sync::{Arc, Mutex};

/// What was noted, in order.
pub struct Noted<E>(Arc<Mutex<Vec<E>>>);

impl<E> Default for Noted<E> {
    fn default() -> Noted<E> {
        Noted(Arc::default())
    }
}

impl<E: Clone + Send + 'static> Noted<E> {
    /// Returns a closure that notes what it is told.
    pub fn noting(&self) -> impl Fn(&E) + Send + Sync + 'static + use<E> {
        let noted = self.0.clone();
        move |told| noted.lock().unwrap().push(told.clone())
    }

    /// Removes what was noted, and returns it.
    pub fn take(&self) -> Vec<E> {
        std::mem::take(&mut self.0.lock().unwrap())
    }
}
