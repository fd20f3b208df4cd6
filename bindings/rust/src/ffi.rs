//! The functions of `bindings/c/sicklespan.h`, behind safe ones. All that is unsafe is here.
#![allow(unsafe_code)]

use std::ffi::{c_char, CStr};

/// `sicklespan_shape`.
#[repr(C)]
#[derive(Clone, Copy, Default)]
pub struct Shape {
    pub width: i32,
    pub version: i32,
    pub mask: i32,
    pub micro: bool,
    pub level: i8,
}

/// `sicklespan_options`.
#[repr(C)]
pub struct Options {
    pub level: i32,
    pub min_version: i32,
    pub max_version: i32,
    pub strongest: i32,
}

/// `sicklespan_settings`: a number below 0 stands for the default.
#[repr(C)]
pub struct Settings {
    pub scale: i32,
    pub quiet: i32,
    pub module_mm: i32,
    pub dpi: i32,
    pub inverted: i32,
    pub at_x: i32,
    pub at_y: i32,
}

/// `sicklespan_fault`.
#[repr(C)]
pub struct Fault {
    pub element: usize,
    pub character: usize,
    pub identifier: i32,
    pub reason: *const c_char,
}

impl Fault {
    /// What a call writes over.
    const NONE: Fault =
        Fault { element: 0, character: 0, identifier: -1, reason: std::ptr::null() };
}

/// `SICKLESPAN_SHORT_BUFFER`.
pub const SHORT_BUFFER: i32 = 8;

/// What data are, with the numbers of `sicklespan_content`.
#[derive(Clone, Copy, PartialEq)]
pub enum Content {
    Bytes = 0,
    Text = 1,
    Elements = 2,
    Gs1 = 3,
    Micro = 4,
    Auto = 5,
    Gs1Unchecked = 6,
    SmallestText = 7,
    MicroText = 8,
    BytesWithoutKanji = 9,
}

#[link(name = "sicklespan", kind = "static")]
extern "C" {
    fn sicklespan_bytes(
        data: *const u8,
        length: usize,
        options: *const Options,
        modules: *mut u8,
        room: usize,
        shape: *mut Shape,
    ) -> i32;
    fn sicklespan_bytes_without_kanji(
        data: *const u8,
        length: usize,
        options: *const Options,
        modules: *mut u8,
        room: usize,
        shape: *mut Shape,
    ) -> i32;
    fn sicklespan_auto(
        data: *const u8,
        length: usize,
        options: *const Options,
        modules: *mut u8,
        room: usize,
        shape: *mut Shape,
    ) -> i32;
    fn sicklespan_text(
        data: *const u8,
        length: usize,
        options: *const Options,
        modules: *mut u8,
        room: usize,
        shape: *mut Shape,
    ) -> i32;
    fn sicklespan_smallest_text(
        data: *const u8,
        length: usize,
        options: *const Options,
        modules: *mut u8,
        room: usize,
        shape: *mut Shape,
    ) -> i32;
    fn sicklespan_elements(
        data: *const u8,
        length: usize,
        options: *const Options,
        modules: *mut u8,
        room: usize,
        shape: *mut Shape,
    ) -> i32;
    fn sicklespan_gs1(
        data: *const u8,
        length: usize,
        options: *const Options,
        modules: *mut u8,
        room: usize,
        shape: *mut Shape,
    ) -> i32;
    fn sicklespan_gs1_unchecked(
        data: *const u8,
        length: usize,
        options: *const Options,
        modules: *mut u8,
        room: usize,
        shape: *mut Shape,
    ) -> i32;
    fn sicklespan_gs1_fault(text: *const u8, length: usize, fault: *mut Fault) -> i32;
    fn sicklespan_link(
        text: *const u8,
        length: usize,
        domain: *const u8,
        domain_length: usize,
        options: *const Options,
        modules: *mut u8,
        room: usize,
        shape: *mut Shape,
    ) -> i32;
    fn sicklespan_link_text(
        text: *const u8,
        length: usize,
        domain: *const u8,
        domain_length: usize,
        link: *mut u8,
        room: usize,
        size: *mut usize,
    ) -> i32;
    fn sicklespan_link_fault(
        text: *const u8,
        length: usize,
        domain: *const u8,
        domain_length: usize,
        fault: *mut Fault,
    ) -> i32;
    fn sicklespan_micro(
        bytes: *const u8,
        length: usize,
        level: i32,
        modules: *mut u8,
        room: usize,
        shape: *mut Shape,
    ) -> i32;
    fn sicklespan_micro_text(
        text: *const u8,
        length: usize,
        level: i32,
        modules: *mut u8,
        room: usize,
        shape: *mut Shape,
    ) -> i32;
    fn sicklespan_sequence(
        message: *const u8,
        length: usize,
        cuts: *const usize,
        cut_count: usize,
        level: i32,
        max_version: i32,
        modules: *mut u8,
        room: usize,
        shapes: *mut Shape,
    ) -> i32;
    fn sicklespan_text_sequence(
        text: *const u8,
        length: usize,
        cuts: *const usize,
        cut_count: usize,
        level: i32,
        max_version: i32,
        modules: *mut u8,
        room: usize,
        shapes: *mut Shape,
    ) -> i32;
    fn sicklespan_cuts(
        message: *const u8,
        length: usize,
        level: i32,
        max_version: i32,
        cuts: *mut usize,
        room: usize,
        count: *mut usize,
    ) -> i32;
    fn sicklespan_text_cuts(
        text: *const u8,
        length: usize,
        level: i32,
        max_version: i32,
        cuts: *mut usize,
        room: usize,
        count: *mut usize,
    ) -> i32;
    fn sicklespan_picture(
        modules: *const u8,
        width: i32,
        format: i32,
        settings: *const Settings,
        picture: *mut u8,
        room: usize,
        length: *mut usize,
    ) -> i32;
    fn sicklespan_check(
        content: i32,
        data: *const u8,
        length: usize,
        options: *const Options,
        good: *mut usize,
    ) -> i32;
    fn sicklespan_wrong_setting(format: i32, settings: *const Settings) -> *const c_char;
    fn sicklespan_greatest_size() -> usize;
    fn sicklespan_version_of_width(width: i32) -> i32;
    fn sicklespan_status_text(status: i32) -> *const c_char;
    fn sicklespan_version() -> *const c_char;
}

// In each call the pointers and lengths are those of slices, which are valid, apart, and no longer
// than they say.

/// The content is none of a Micro symbol.
pub fn symbol(
    content: Content,
    data: &[u8],
    options: &Options,
    modules: &mut [u8],
    shape: &mut Shape,
) -> i32 {
    let call = match content {
        Content::Bytes | Content::Micro | Content::MicroText => sicklespan_bytes,
        Content::BytesWithoutKanji => sicklespan_bytes_without_kanji,
        Content::Auto => sicklespan_auto,
        Content::Text => sicklespan_text,
        Content::SmallestText => sicklespan_smallest_text,
        Content::Elements => sicklespan_elements,
        Content::Gs1 => sicklespan_gs1,
        Content::Gs1Unchecked => sicklespan_gs1_unchecked,
    };
    unsafe { call(data.as_ptr(), data.len(), options, modules.as_mut_ptr(), modules.len(), shape) }
}

pub fn link(
    text: &[u8],
    domain: &[u8],
    options: &Options,
    modules: &mut [u8],
    shape: &mut Shape,
) -> i32 {
    unsafe {
        sicklespan_link(
            text.as_ptr(),
            text.len(),
            domain.as_ptr(),
            domain.len(),
            options,
            modules.as_mut_ptr(),
            modules.len(),
            shape,
        )
    }
}

pub fn link_text(text: &[u8], domain: &[u8], link: &mut [u8], size: &mut usize) -> i32 {
    unsafe {
        sicklespan_link_text(
            text.as_ptr(),
            text.len(),
            domain.as_ptr(),
            domain.len(),
            link.as_mut_ptr(),
            link.len(),
            size,
        )
    }
}

/// The status of elements, and where their first fault is.
pub fn gs1_fault(text: &[u8]) -> (i32, Fault) {
    let mut fault = Fault::NONE;
    let status = unsafe { sicklespan_gs1_fault(text.as_ptr(), text.len(), &mut fault) };
    (status, fault)
}

/// The status of elements and a domain, and where their first fault is.
pub fn link_fault(text: &[u8], domain: &[u8]) -> (i32, Fault) {
    let mut fault = Fault::NONE;
    let (at, host) = (text.as_ptr(), domain.as_ptr());
    let status = unsafe { sicklespan_link_fault(at, text.len(), host, domain.len(), &mut fault) };
    (status, fault)
}

/// The content is one of a Micro symbol: bytes or a text.
pub fn micro(
    content: Content,
    data: &[u8],
    level: i32,
    modules: &mut [u8],
    shape: &mut Shape,
) -> i32 {
    let call = match content {
        Content::MicroText => sicklespan_micro_text,
        _ => sicklespan_micro,
    };
    unsafe { call(data.as_ptr(), data.len(), level, modules.as_mut_ptr(), modules.len(), shape) }
}

/// There is a shape for each part, and the content is bytes or a text.
pub fn sequence(
    content: Content,
    message: &[u8],
    cuts: &[usize],
    level: i32,
    max_version: i32,
    modules: &mut [u8],
    shapes: &mut [Shape],
) -> i32 {
    assert_eq!(shapes.len(), cuts.len() + 1);
    let call = match content {
        Content::Text => sicklespan_text_sequence,
        _ => sicklespan_sequence,
    };
    unsafe {
        call(
            message.as_ptr(),
            message.len(),
            cuts.as_ptr(),
            cuts.len(),
            level,
            max_version,
            modules.as_mut_ptr(),
            modules.len(),
            shapes.as_mut_ptr(),
        )
    }
}

/// The content is bytes or a text.
pub fn cuts(
    content: Content,
    message: &[u8],
    level: i32,
    max_version: i32,
    cuts: &mut [usize],
    count: &mut usize,
) -> i32 {
    let call = match content {
        Content::Text => sicklespan_text_cuts,
        _ => sicklespan_cuts,
    };
    unsafe {
        call(
            message.as_ptr(),
            message.len(),
            level,
            max_version,
            cuts.as_mut_ptr(),
            cuts.len(),
            count,
        )
    }
}

/// There are width * width modules.
pub fn picture(
    modules: &[u8],
    width: usize,
    format: i32,
    settings: &Settings,
    picture: &mut [u8],
    length: &mut usize,
) -> i32 {
    assert_eq!(modules.len(), width * width);
    unsafe {
        sicklespan_picture(
            modules.as_ptr(),
            width as i32,
            format,
            settings,
            picture.as_mut_ptr(),
            picture.len(),
            length,
        )
    }
}

/// The status of some data, and how many of the first bytes are good.
pub fn check(content: Content, data: &[u8], options: &Options) -> (i32, usize) {
    let mut good = 0;
    let status =
        unsafe { sicklespan_check(content as i32, data.as_ptr(), data.len(), options, &mut good) };
    (status, good)
}

/// The name of the setting that is wrong; it is static and ASCII.
pub fn wrong_setting(format: i32, settings: &Settings) -> &'static str {
    static_text(unsafe { sicklespan_wrong_setting(format, settings) })
}

pub fn greatest_size() -> usize {
    unsafe { sicklespan_greatest_size() }
}

pub fn version_of_width(width: usize) -> i32 {
    i32::try_from(width).map_or(0, |width| unsafe { sicklespan_version_of_width(width) })
}

/// The text of a status; it is static and ASCII.
pub fn status_text(status: i32) -> &'static str {
    let text = unsafe { CStr::from_ptr(sicklespan_status_text(status)) };
    text.to_str().unwrap_or("")
}

/// A text that is static and ASCII, or empty for a null pointer; the calls above give no other.
pub fn static_text(text: *const c_char) -> &'static str {
    if text.is_null() {
        return "";
    }
    unsafe { CStr::from_ptr(text) }.to_str().unwrap_or("")
}

/// The version of the library; it is static and ASCII.
pub fn version() -> &'static str {
    let text = unsafe { CStr::from_ptr(sicklespan_version()) };
    text.to_str().unwrap_or("")
}
