//! The pointer type of the arenas: an index and a generation of 32 bits each.
//!
//! Only this module has to change if the macro for pointer types takes other arguments.

use std::num::NonZeroU32;
use triple_arena::ptr_struct;
use triple_arena::traits::Ptr;

ptr_struct!(P0[NonZeroU32](NonZeroU32));

/// An index.
pub type Inx = NonZeroU32;

/// A generation.
pub type Generation = NonZeroU32;

/// Returns the pointer with an index and a generation.
pub fn pointer(inx: Inx, generation: Generation) -> P0 {
    P0::_from_raw(inx, generation)
}

/// Returns the index of a pointer as a number.
pub fn index_of(p: P0) -> u32 {
    p.inx().get()
}

/// Returns the generation of a pointer as a number.
pub fn generation_of(p: P0) -> u32 {
    p.generation().get()
}
