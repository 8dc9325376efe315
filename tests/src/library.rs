//! The proved library, linked as libbus.a: the export of each row.

use crate::bus::Bus;
use crate::rows::{argument_type, every_call};

/// The linked library.
pub struct Library;

/// Calls an export: a number is given as it is, a buffer as a pointer and its length. Every pointer
/// comes with the length of the slice it was taken from, and the library asks for nothing else.
macro_rules! export {
    ($call:ident ($($given:expr,)*) ($($type:ty,)*)) => {{
        extern "C" {
            #[link_name = concat!("bus_", stringify!($call))]
            fn export($(_: $type),*) -> i32;
        }
        unsafe { export($($given),*) }
    }};
    ($call:ident ($($given:expr,)*) ($($type:ty,)*) $name:ident read $($rest:tt)*) => {
        export!($call ($($given,)* $name.as_ptr(), $name.len(),) ($($type,)* *const u8, usize,) $($rest)*)
    };
    ($call:ident ($($given:expr,)*) ($($type:ty,)*) $name:ident write $($rest:tt)*) => {
        export!($call ($($given,)* $name.as_mut_ptr(), $name.len(),) ($($type,)* *mut u8, usize,) $($rest)*)
    };
    ($call:ident ($($given:expr,)*) ($($type:ty,)*) $name:ident $width:ident $($rest:tt)*) => {
        export!($call ($($given,)* $name,) ($($type,)* $width,) $($rest)*)
    };
}

macro_rules! link {
    ($(
        $(#[$doc:meta])*
        $call:ident($($name:ident: $kind:ident($($says:tt)*),)*) refuses [$($number:literal),*];
    )*) => {
        impl Bus for Library {
            $(fn $call(&self, $($name: argument_type!($kind)),*) -> i32 {
                export!($call () () $($name $kind)*)
            })*
        }
    };
}

every_call!(link);
