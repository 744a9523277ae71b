//! The calls of the static library, as typst_html.h declares them.

use crate::{Kind, Level, Options, Place, Refusal, VERSION};
use std::sync::atomic::{AtomicBool, Ordering::Relaxed};
use std::sync::Once;

/// The reply of a call.
#[repr(C)]
struct Reply {
    length: usize,
    span: u64,
    line: usize,
    column: usize,
    status: u8,
    number: u8,
}

impl Reply {
    /// Returns the refusal of a reply of status 1 or 2 to JSON.
    fn of_json(&self) -> Refusal {
        match self.status {
            1 => Refusal::Refused {
                number: self.number,
                span: self.span,
                path: None,
            },
            _ => Refusal::BadInput {
                span: self.span,
                line: self.line,
                column: self.column,
                path: None,
            },
        }
    }

    /// Returns the refusal of a reply of status 1 or 2 to a page. (A `str` is UTF-8, so the limit
    /// is the only reason for status 2.)
    fn of_page(&self) -> Refusal {
        match self.status {
            1 => Refusal::PageRefused {
                number: self.number,
                place: Place {
                    offset: self.span,
                    line: self.line,
                    column: self.column,
                },
            },
            _ => self.of_json(),
        }
    }
}

extern "C" {
    fn typst_html_version() -> u32;

    fn typst_html_write(
        kind: u8,
        layout: u8,
        input: *const u8,
        length: usize,
        output: *mut u8,
        room: usize,
    ) -> Reply;

    fn typst_html_document(
        layout: u8,
        links: u8,
        limit: u32,
        input: *const u8,
        length: usize,
        output: *mut u8,
        room: usize,
    ) -> Reply;

    fn typst_html_fragment(
        level: u8,
        limit: u32,
        input: *const u8,
        length: usize,
        output: *mut u8,
        room: usize,
    ) -> Reply;

    fn typst_html_dead_links(
        limit: u32,
        input: *const u8,
        length: usize,
        output: *mut u8,
        room: usize,
    ) -> Reply;

    fn typst_html_unused(
        limit: u32,
        input: *const u8,
        length: usize,
        output: *mut u8,
        room: usize,
    ) -> Reply;

    fn typst_html_check(
        limit: u32,
        page: *const u8,
        length: usize,
        output: *mut u8,
        room: usize,
    ) -> Reply;

    fn typst_html_links(
        limit: u32,
        page: *const u8,
        length: usize,
        output: *mut u8,
        room: usize,
    ) -> Reply;
}

/// Returns the version of the linked library.
pub(crate) fn version() -> u32 {
    // SAFETY: the call takes nothing.
    unsafe { typst_html_version() }
}

/// Returns whether the linked library has the version of this crate. Reads the version only once.
fn is_known() -> bool {
    static LOOKED: Once = Once::new();
    static KNOWN: AtomicBool = AtomicBool::new(false);
    LOOKED.call_once(|| KNOWN.store(version() == VERSION, Relaxed));
    KNOWN.load(Relaxed)
}

/// Returns the text of a tree or of items.
pub(crate) fn write(kind: Kind, pretty: bool, input: &[u8]) -> Result<String, Refusal> {
    let kind = match kind {
        Kind::Tree => 0,
        Kind::Items => 1,
    };
    text_by(input.len(), Reply::of_json, |output| {
        // SAFETY: the library has this version, so the declaration is that of the export, which
        // requires nothing beyond its types; each pointer and length are those of one slice, and
        // `output` is borrowed mutably.
        unsafe {
            typst_html_write(
                kind,
                pretty.into(),
                input.as_ptr(),
                input.len(),
                output.as_mut_ptr(),
                output.len(),
            )
        }
    })
}

/// Returns the text of a document, and `false` if its links were resolved and some lead nowhere.
pub(crate) fn document(options: Options, input: &[u8]) -> Result<(String, bool), Refusal> {
    made_by(input.len(), Reply::of_json, |output| {
        // SAFETY: as in `write`.
        unsafe {
            typst_html_document(
                options.pretty.into(),
                options.links.into(),
                options.limit,
                input.as_ptr(),
                input.len(),
                output.as_mut_ptr(),
                output.len(),
            )
        }
    })
}

/// Returns the text of items by themselves.
pub(crate) fn fragment(level: Level, limit: u32, input: &[u8]) -> Result<String, Refusal> {
    let level = match level {
        Level::Block => 0,
        Level::Inline => 1,
    };
    text_by(input.len(), Reply::of_json, |output| {
        // SAFETY: as in `write`.
        unsafe {
            typst_html_fragment(
                level,
                limit,
                input.as_ptr(),
                input.len(),
                output.as_mut_ptr(),
                output.len(),
            )
        }
    })
}

/// Returns the links of a document that lead nowhere, in JSON.
pub(crate) fn dead_links(limit: u32, input: &[u8]) -> Result<String, Refusal> {
    text_by(input.len(), Reply::of_json, |output| {
        // SAFETY: as in `write`.
        unsafe {
            typst_html_dead_links(
                limit,
                input.as_ptr(),
                input.len(),
                output.as_mut_ptr(),
                output.len(),
            )
        }
    })
}

/// Returns the names of the members that the text of a document does not show, in JSON.
pub(crate) fn unused(limit: u32, input: &[u8]) -> Result<String, Refusal> {
    text_by(input.len(), Reply::of_json, |output| {
        // SAFETY: as in `write`.
        unsafe {
            typst_html_unused(
                limit,
                input.as_ptr(),
                input.len(),
                output.as_mut_ptr(),
                output.len(),
            )
        }
    })
}

/// Returns what is wrong in a page, in JSON.
pub(crate) fn check(limit: u32, page: &[u8]) -> Result<String, Refusal> {
    text_by(page.len(), Reply::of_page, |output| {
        // SAFETY: as in `write`.
        unsafe {
            typst_html_check(
                limit,
                page.as_ptr(),
                page.len(),
                output.as_mut_ptr(),
                output.len(),
            )
        }
    })
}

/// Returns the ids, the names and the links of a page, in JSON.
pub(crate) fn links(limit: u32, page: &[u8]) -> Result<String, Refusal> {
    text_by(page.len(), Reply::of_page, |output| {
        // SAFETY: as in `write`.
        unsafe {
            typst_html_links(
                limit,
                page.as_ptr(),
                page.len(),
                output.as_mut_ptr(),
                output.len(),
            )
        }
    })
}

/// Returns the text that a call makes. A reply with dead links is one of another library.
fn text_by(
    length: usize,
    refusal: impl Fn(&Reply) -> Refusal,
    call: impl Fn(&mut [u8]) -> Reply,
) -> Result<String, Refusal> {
    match made_by(length, refusal, call)? {
        (text, true) => Ok(text),
        (_, false) => Err(Refusal::OtherLibrary),
    }
}

/// Returns the text that a call makes, and `false` if the call reports dead links. The first buffer
/// has four bytes for each byte of the input, which mostly is enough. A library of another version
/// is not called.
fn made_by(
    length: usize,
    refusal: impl Fn(&Reply) -> Refusal,
    call: impl Fn(&mut [u8]) -> Reply,
) -> Result<(String, bool), Refusal> {
    if !is_known() {
        return Err(Refusal::OtherLibrary);
    }
    let mut output = vec![0; 4 * length + 1024];
    loop {
        let reply = call(&mut output);
        match reply.status {
            0 | 5 if reply.length <= output.len() => {
                output.truncate(reply.length);
                output.shrink_to_fit();
                let text = String::from_utf8(output).expect("the library writes UTF-8");
                return Ok((text, reply.status == 0));
            }
            1 | 2 => return Err(refusal(&reply)),
            3 => return Err(Refusal::OutOfMemory),
            4 if reply.length > output.len() => output.resize(reply.length, 0),
            _ => return Err(Refusal::OtherLibrary),
        }
    }
}
