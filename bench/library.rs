// The functions of the library that a job times, and beside them, in a build with `--cfg before`, those of another commit's library: their
// names begin with `before_` there. So a job is written once, and does the same with both.
#[allow(dead_code)]
#[path = "../bindings/rust/src/ffi.rs"]
pub mod ffi;

// Stops unless the other commit's library has the layout that the declarations are for. One of another version has no such function, so that a job
// which calls this is not linked with it.
pub fn check_layout() {
    #[cfg(all(before, not(before_version_2)))]
    {
        extern "C" {
            fn before_tuilarder_layout_3() -> u64;
        }
        // SAFETY: it takes nothing.
        assert_eq!(unsafe { before_tuilarder_layout_3() }, ffi::LAYOUT);
    }
    // Version 2 has no forms. What takes neither a form nor a record is the same in it, and a job calls nothing else of it.
    #[cfg(before_version_2)]
    {
        extern "C" {
            fn before_tuilarder_layout_2() -> u64;
        }
        // SAFETY: it takes nothing.
        assert_eq!(unsafe { before_tuilarder_layout_2() }, (2 << 32) | 392);
    }
}

// A job names its functions here, as the Rust crate declares them.
macro_rules! libraries {
    ($($function:ident($($input:ty),*) $(-> $output:ty)?;)*) => {
        struct Library {
            name: &'static str,
            $($function: unsafe extern "C" fn($($input),*) $(-> $output)?,)*
        }

        impl Library {
            #[cfg(all(before, not(before_version_1)))]
            const BEFORE: Library = {
                extern "C" {
                    $(#[link_name = concat!("before_", stringify!($function))]
                    fn $function($(_: $input),*) $(-> $output)?;)*
                }
                Library { name: "library before", $($function,)* }
            };

            const NOW: Library = Library { name: "library", $($function: library::ffi::$function,)* };

            // The last is what all ways are compared with.
            #[allow(dead_code)]
            fn all() -> &'static [Library] {
                library::check_layout();
                &[
                    #[cfg(all(before, not(before_version_1)))]
                    Library::BEFORE,
                    Library::NOW,
                ]
            }
        }
    };
}
