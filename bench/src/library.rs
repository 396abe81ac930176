//! The functions of the proved library that run events: those linked into this program, and those of another build of it, a shared object.

use crate::c::{rakhvide_check, rakhvide_open, rakhvide_page, rakhvide_step};
use second::table::BYTES;
use std::ffi::{c_char, c_int, c_void, CStr, CString};

type Page = unsafe extern "C" fn(*const u8, usize, *const u8, usize, *mut u8, usize, *mut usize) -> bool;
type Open = unsafe extern "C" fn(*const u8, usize, *mut u8, usize) -> u8;
type Step = unsafe extern "C" fn(*mut u8, usize, *const u8, usize) -> u8;
type Check = unsafe extern "C" fn(*const u8, usize) -> u8;

extern "C" {
    fn dlopen(file: *const c_char, flags: c_int) -> *mut c_void;
    fn dlsym(handle: *mut c_void, name: *const c_char) -> *mut c_void;
    fn dlerror() -> *const c_char;
}

/// All names are looked up at once, and none is given to others: RTLD_NOW, and RTLD_LOCAL, which is 0.
const NOW_AND_LOCAL: c_int = 2;

/// The bytes of a snapshot.
pub type Snapshot = [u8; BYTES];

pub struct Library {
    page: Page,
    open: Open,
    step: Step,
    check: Check,
}

/// What the loader says of its last failure.
fn fault() -> String {
    unsafe { CStr::from_ptr(dlerror()) }.to_string_lossy().into_owned()
}

/// The address of a function, as a pointer of the type `F`, which must be the function's own.
unsafe fn function<F: Copy>(handle: *mut c_void, name: &CStr) -> Result<F, String> {
    let address = dlsym(handle, name.as_ptr());
    if address.is_null() {
        return Err(fault());
    }
    Ok(std::mem::transmute_copy(&address))
}

impl Library {
    pub fn linked() -> Library {
        Library { page: rakhvide_page, open: rakhvide_open, step: rakhvide_step, check: rakhvide_check }
    }

    /// The one of a shared object, which stays loaded.
    pub fn of_file(file: &str) -> Result<Library, String> {
        let name = CString::new(file).map_err(|fault| fault.to_string())?;
        let library = unsafe {
            let handle = dlopen(name.as_ptr(), NOW_AND_LOCAL);
            if handle.is_null() {
                return Err(fault());
            }
            Library {
                page: function(handle, c"rakhvide_page")?,
                open: function(handle, c"rakhvide_open")?,
                step: function(handle, c"rakhvide_step")?,
                check: function(handle, c"rakhvide_check")?,
            }
        };
        let same = library.page as usize == rakhvide_page as *const () as usize;
        if same {
            return Err(format!("{file}: its functions are those of this program"));
        }
        Ok(library)
    }

    /// Writes the page and returns its length.
    pub fn page(&self, book: &[u8], events: &[u8], out: &mut [u8]) -> usize {
        let mut written = 0;
        let (nb, ne, no) = (book.len(), events.len(), out.len());
        let long_enough = unsafe {
            (self.page)(book.as_ptr(), nb, events.as_ptr(), ne, out.as_mut_ptr(), no, &mut written)
        };
        assert!(long_enough, "a page is longer than its buffer");
        written
    }

    pub fn open(&self, book: &[u8]) -> Snapshot {
        let mut table = [0; BYTES];
        let number = unsafe { (self.open)(book.as_ptr(), book.len(), table.as_mut_ptr(), BYTES) };
        assert_eq!(number, 0, "a library opens no snapshot of {BYTES} bytes");
        table
    }

    pub fn step(&self, table: &mut Snapshot, event: &[u8]) -> u8 {
        unsafe { (self.step)(table.as_mut_ptr(), BYTES, event.as_ptr(), event.len()) }
    }

    pub fn check(&self, table: &Snapshot) -> u8 {
        unsafe { (self.check)(table.as_ptr(), BYTES) }
    }
}
