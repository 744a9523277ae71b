//! Tests of the crate with a library of another version, or with other replies. Its calls are those
//! of this file, which the linker finds before those of the archive.

use std::process::{abort, Command};
use std::sync::atomic::{AtomicU32, AtomicUsize, Ordering::SeqCst};
use typst_html_proved::*;

/// The variable that is set in a process with a library of another version.
const OTHER: &str = "TYPST_HTML_OTHER_VERSION";

/// The reply, with the library's layout.
#[repr(C)]
pub struct Reply {
    length: usize,
    span: u64,
    line: usize,
    column: usize,
    status: u8,
    number: u8,
}

static LINKED: AtomicU32 = AtomicU32::new(VERSION);
static CALLS: AtomicUsize = AtomicUsize::new(0);

/// Returns a reply with that status. Aborts after a few calls: then the crate would never end.
fn reply(status: u8) -> Reply {
    if CALLS.fetch_add(1, SeqCst) > 20 {
        abort();
    }
    Reply {
        length: 7,
        span: 0,
        line: 0,
        column: 0,
        status,
        number: 0,
    }
}

#[no_mangle]
extern "C" fn typst_html_version() -> u32 {
    LINKED.load(SeqCst)
}

/// Returns another status for each kind and layout: one that is known, and three that are not.
#[no_mangle]
extern "C" fn typst_html_write(
    kind: u8,
    layout: u8,
    _: *const u8,
    _: usize,
    _: *mut u8,
    _: usize,
) -> Reply {
    reply([4, 5, 200, 255][usize::from(2 * kind + layout)])
}

#[no_mangle]
extern "C" fn typst_html_document(
    _: u8,
    _: u8,
    _: u32,
    _: *const u8,
    _: usize,
    _: *mut u8,
    _: usize,
) -> Reply {
    reply(6)
}

#[no_mangle]
extern "C" fn typst_html_fragment(
    _: u8,
    _: u32,
    _: *const u8,
    _: usize,
    _: *mut u8,
    _: usize,
) -> Reply {
    reply(11)
}

#[no_mangle]
extern "C" fn typst_html_dead_links(_: u32, _: *const u8, _: usize, _: *mut u8, _: usize) -> Reply {
    reply(8)
}

#[no_mangle]
extern "C" fn typst_html_unused(_: u32, _: *const u8, _: usize, _: *mut u8, _: usize) -> Reply {
    reply(9)
}

#[no_mangle]
extern "C" fn typst_html_check(_: u32, _: *const u8, _: usize, _: *mut u8, _: usize) -> Reply {
    reply(7)
}

#[no_mangle]
extern "C" fn typst_html_links(_: u32, _: *const u8, _: usize, _: *mut u8, _: usize) -> Reply {
    reply(10)
}

/// Asserts that no call of this crate returns a text. (The reply with status 4 has a length that is
/// less than the buffer's.)
fn all_are_refused() {
    for kind in [Kind::Tree, Kind::Items] {
        for pretty in [false, true] {
            assert_eq!(write_json(kind, b"[]", pretty), Err(Refusal::OtherLibrary));
        }
    }
    let document = write(&Document::new(), Options::new());
    assert_eq!(document, Err(Refusal::OtherLibrary));
    let fragment = write_fragment(&[], Level::Block, 50);
    assert_eq!(fragment, Err(Refusal::OtherLibrary));
    assert_eq!(unused(&Document::new(), 50), Err(Refusal::OtherLibrary));
    assert_eq!(check("", 50), Err(Refusal::OtherLibrary));
    assert_eq!(links("", 50), Err(Refusal::OtherLibrary));
}

#[test]
fn another_library_is_reported() {
    let is_other = std::env::var_os(OTHER).is_some();
    if is_other {
        LINKED.store(VERSION + 1, SeqCst);
    }
    all_are_refused();
    let wanted = if is_other { 0 } else { 9 };
    assert_eq!(CALLS.load(SeqCst), wanted, "another version is not called");
    // The version is read only once.
    LINKED.store(VERSION + 2, SeqCst);
    all_are_refused();
    assert_eq!(CALLS.load(SeqCst), 2 * wanted);
    if !is_other {
        let mut again = Command::new(std::env::current_exe().unwrap());
        assert!(again.env(OTHER, "1").output().unwrap().status.success());
    }
    assert_eq!(
        Refusal::OtherLibrary.to_string(),
        "the library that is linked is not of the version that is wanted"
    );
}
