//! Memory for rows, words and files that is asked for and may be refused, so that a long recording ends in a message.
use std::alloc::{alloc_zeroed, Layout};
use std::ffi::c_int;

/// So many bytes were asked for and refused.
#[derive(Clone, Copy)]
pub struct Lack(pub usize);

impl Lack {
    /// What is said where memory was for `what` of a recording, and how far the work has come.
    pub fn message(self, what: &str, name: &str, state: &str) -> String {
        format!(
            "not enough memory: the system refused {} bytes for {what}\n\
             {name} is too large to be read in one piece on this machine; {state}\n\
             what to do: use a machine with more memory, or record in shorter parts",
            self.0
        )
    }
}

/// Keeps the GNU C library from setting up a heap for each thread, for which it takes 64 MB of addresses: where they are limited, rows need them.
pub fn share_the_heap() {
    #[cfg(target_env = "gnu")]
    {
        extern "C" {
            /// Of the C library, which Rust's own links.
            fn mallopt(parameter: c_int, value: c_int) -> c_int;
        }
        const M_ARENA_MAX: c_int = -8;
        // SAFETY: the call takes two numbers, and no other thread runs yet.
        unsafe { mallopt(M_ARENA_MAX, 1) };
    }
}

/// Adds an element to a list, if there is memory for a longer one.
pub fn pushed<T>(list: &mut Vec<T>, element: T) -> Result<(), Lack> {
    if list.len() == list.capacity() {
        let more = list.len().max(64);
        list.try_reserve(more).map_err(|_| Lack((list.len() + more).saturating_mul(size_of::<T>())))?;
    }
    list.push(element);
    Ok(())
}

/// A number whose value is 0 where all its bits are.
pub trait Number: Copy {}

impl Number for u8 {}

impl Number for u32 {}

/// So many zeros. Those that are never touched take no memory, since the system gives zeroed pages when they are first used.
pub fn zeros<T: Number>(length: usize) -> Result<Vec<T>, Lack> {
    let lack = Lack(length.saturating_mul(size_of::<T>()));
    let layout = Layout::array::<T>(length).map_err(|_| lack)?;
    if layout.size() == 0 {
        return Ok(vec![]);
    }
    // SAFETY: the layout's size is not 0.
    let start = unsafe { alloc_zeroed(layout) }.cast::<T>();
    if start.is_null() {
        return Err(lack);
    }
    // SAFETY: the global allocator gave this memory for an array of `length` elements, and zeroed bits are an element of `T`.
    Ok(unsafe { Vec::from_raw_parts(start, length, length) })
}
