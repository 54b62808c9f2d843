//! Shared libraries opened at run time, so that the benchmark builds and runs where they are not installed.

use std::ffi::{c_char, c_int, c_void, CStr, CString};

extern "C" {
    fn dlopen(name: *const c_char, flags: c_int) -> *mut c_void;
    fn dlsym(library: *mut c_void, name: *const c_char) -> *mut c_void;
}

const RTLD_NOW: c_int = 2;

/// A library, open until the program ends.
pub struct Library(*mut c_void);

impl Library {
    /// The library of a file name, if the loader finds it.
    pub fn open(name: &str) -> Option<Library> {
        let name = CString::new(name).ok()?;
        // The loader runs the initialisers of a library of Debian's.
        let library = unsafe { dlopen(name.as_ptr(), RTLD_NOW) };
        (!library.is_null()).then_some(Library(library))
    }

    /// A function of the library.
    ///
    /// # Safety
    ///
    /// `F` is the type of a pointer to that function.
    pub unsafe fn function<F: Copy>(&self, name: &CStr) -> Option<F> {
        assert_eq!(size_of::<F>(), size_of::<*mut c_void>());
        let symbol = dlsym(self.0, name.as_ptr());
        (!symbol.is_null()).then(|| std::mem::transmute_copy(&symbol))
    }
}

/// A struct of functions of a library, with a function that opens it.
macro_rules! functions {
    ($(#[$meta:meta])* $name:ident from $file:literal { $($field:ident: $symbol:literal $kind:ty,)* }) => {
        $(#[$meta])*
        #[derive(Clone, Copy)]
        struct $name {
            $($field: $kind,)*
        }

        impl $name {
            fn open() -> Option<$name> {
                let library = crate::library::Library::open($file)?;
                // The types are those of the library's header.
                unsafe { Some($name { $($field: library.function($symbol)?,)* }) }
            }
        }
    };
}

pub(crate) use functions;

#[cfg(test)]
mod tests {
    use super::Library;

    #[test]
    fn a_library_that_is_not_there() {
        assert!(Library::open("libcechnuol-is-not-there.so.0").is_none());
    }
}
