use core::fmt;
use core::ptr;
use core::sync::atomic::{compiler_fence, Ordering};

use crate::ffi::{self, Record};
use crate::field::Field;
use crate::form::Form;
use crate::refusal::{result, Refusal};

/// One use of the sponge, from START to FINISH. [`Protocol::start`](crate::Protocol::start) opens one.
///
/// A session is neither `Clone` nor `Copy`, so that no second one is made by accident: [`Session::fork`] makes one. When it is dropped, its
/// record is wiped. As all moves in Rust, that of a session may leave its bytes behind in the old place, and so may the library's own copies
/// on the stack: no secrecy is claimed.
///
/// ```compile_fail,E0599
/// fn second(session: tuilarder::Session) -> tuilarder::Session {
///     session.clone()
/// }
/// ```
///
/// ```compile_fail,E0382
/// fn twice(session: tuilarder::Session) -> [tuilarder::Session; 2] {
///     [session, session]
/// }
/// ```
pub struct Session {
    pub(crate) record: Record,
}

impl Session {
    /// ABSORB: takes elements in. A phase's elements may be cut into calls freely. A call with no elements changes nothing.
    ///
    /// # Errors
    ///
    /// [`Refusal::RecordNotOpen`] (7), [`Refusal::RecordNotSound`] (8), [`Refusal::CallNotInPattern`] (9), [`Refusal::ElementNotReduced`]
    /// (10), the first that applies. 9 wipes the record, and later calls get 7; the others leave it.
    pub fn absorb(&mut self, elements: &[u32]) -> Result<(), Refusal> {
        // SAFETY: the slice is valid for its length, and `&mut self` keeps the record apart from it.
        result(unsafe { ffi::tuilarder_absorb(&mut self.record, elements.as_ptr(), elements.len()) })
    }

    /// SQUEEZE: fills a buffer with elements. A phase's elements may be cut into calls freely. An empty buffer changes nothing.
    ///
    /// # Errors
    ///
    /// [`Refusal::RecordNotOpen`] (7), [`Refusal::RecordNotSound`] (8), [`Refusal::CallNotInPattern`] (9), the first that applies, and the
    /// buffer is left. 9 wipes the record, and later calls get 7; the others leave it.
    pub fn squeeze(&mut self, buffer: &mut [u32]) -> Result<(), Refusal> {
        // SAFETY: the slice is valid for its length, and `&mut self` keeps the record apart from it.
        result(unsafe { ffi::tuilarder_squeeze(&mut self.record, buffer.as_mut_ptr(), buffer.len()) })
    }

    /// SQUEEZE of `N` elements, as an array.
    ///
    /// # Errors
    ///
    /// As [`Session::squeeze`].
    pub fn challenge<const N: usize>(&mut self) -> Result<[u32; N], Refusal> {
        let mut elements = [0; N];
        self.squeeze(&mut elements)?;
        Ok(elements)
    }

    /// FINISH: ends a session whose pattern is done. Refused or not, the session is over and its record wiped.
    ///
    /// # Errors
    ///
    /// [`Refusal::RecordNotOpen`] (7), [`Refusal::RecordNotSound`] (8), [`Refusal::PatternNotDone`] (11), the first that applies.
    pub fn finish(mut self) -> Result<(), Refusal> {
        // SAFETY: the record is this session's own.
        result(unsafe { ffi::tuilarder_finish(&mut self.record) })
    }

    /// A second session at the same place. Each goes on by itself.
    pub fn fork(&self) -> Session {
        Session { record: self.record }
    }

    /// The field that its elements are of; none where the record is wiped or has another number.
    pub fn field(&self) -> Option<Field> {
        Field::from_number(self.record.field)
    }

    /// The form of the tag string that it was opened with; none where the record is wiped or has another number.
    pub fn form(&self) -> Option<Form> {
        Form::from_number(self.record.form)
    }

    /// How many permutations the session has had.
    pub fn permutations(&self) -> u64 {
        self.record.permutations
    }

    /// The record, which holds the state.
    pub fn record(&self) -> &Record {
        &self.record
    }

    /// The session of any record. Each call looks at the record before it uses it: 7 where it is not open, 8 where it is not sound.
    pub fn from_record(record: Record) -> Session {
        Session { record }
    }
}

/// The state is left out.
impl fmt::Debug for Session {
    fn fmt(&self, f: &mut fmt::Formatter<'_>) -> fmt::Result {
        f.debug_struct("Session")
            .field("open", &(self.record.status == 1))
            .field("phase", &self.record.phase)
            .field("done", &self.record.done)
            .field("permutations", &self.record.permutations)
            .finish_non_exhaustive()
    }
}

/// Wipes the record.
impl Drop for Session {
    fn drop(&mut self) {
        // SAFETY: the record is this session's own. A volatile write is not left out, though nothing reads the record again.
        unsafe { ptr::write_volatile(&mut self.record, Record::WIPED) };
        compiler_fence(Ordering::SeqCst);
    }
}
