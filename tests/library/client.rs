//! Makes one call as client.c does, from Rust.
use std::ffi::{CStr, c_char, c_int, c_uint};
use std::io::Write;
use std::{env, fs, process, ptr, slice};

/// `pclmin_answer` of pclmin.h.
#[repr(C)]
struct Answer {
    bytes: *mut u8,
    length: usize,
    certificate: *mut u8,
    certificate_length: usize,
    line: *const c_char,
    place: usize,
    pages: usize,
    fault: c_int,
    kind: c_int,
    job: c_int,
    resolution: c_int,
    holds: c_int,
}

type Bytes = *const u8;

extern "C" {
    fn pclmin_preview(job: Bytes, len: usize, dpi: c_uint, first: c_uint, last: c_uint, answer: *mut Answer) -> c_int;
    /// Pages first to last as PGM images (P5): a byte for each square of scale by scale dots, their mean, where black is 0 and white
    /// 255. A scale is 1 to 32; with another the call returns 3, PCLMIN_WRONG_ARGUMENT.
    fn pclmin_grey(
        job: Bytes, len: usize, dpi: c_uint, first: c_uint, last: c_uint, scale: c_uint, answer: *mut Answer,
    ) -> c_int;
    fn pclmin_min(job: Bytes, len: usize, dpi: c_uint, format: c_uint, answer: *mut Answer) -> c_int;
    fn pclmin_shrink(job: Bytes, len: usize, dpi: c_uint, answer: *mut Answer) -> c_int;
    fn pclmin_same(a: Bytes, a_len: usize, b: Bytes, b_len: usize, dpi: c_uint, answer: *mut Answer) -> c_int;
    fn pclmin_same_asked(a: Bytes, a_len: usize, b: Bytes, b_len: usize, dpi: c_uint, answer: *mut Answer) -> c_int;
    fn pclmin_check(
        input: Bytes, input_len: usize, output: Bytes, output_len: usize, cert: Bytes, cert_len: usize, dpi: c_uint,
        answer: *mut Answer,
    ) -> c_int;
    fn pclmin_check_pages(
        images: Bytes, images_len: usize, output: Bytes, output_len: usize, cert: Bytes, cert_len: usize, dpi: c_uint,
        answer: *mut Answer,
    ) -> c_int;
    fn pclmin_page_count(job: Bytes, len: usize, dpi: c_uint, answer: *mut Answer) -> c_int;
    fn pclmin_pages(job: Bytes, len: usize, dpi: c_uint, answer: *mut Answer) -> c_int;
    fn pclmin_explain(job: Bytes, len: usize, dpi: c_uint, answer: *mut Answer) -> c_int;
    fn pclmin_version() -> *const c_char;
    fn pclmin_free(answer: *mut Answer);
}

/// A file's bytes; none for `-`, which is passed as a null pointer.
fn job(name: &str) -> Option<Vec<u8>> {
    if name == "-" { None } else { Some(fs::read(name).expect("the job can be read")) }
}

fn at(job: &Option<Vec<u8>>) -> Bytes {
    job.as_ref().map_or(ptr::null(), |bytes| bytes.as_ptr())
}

fn len(job: &Option<Vec<u8>>) -> usize {
    job.as_ref().map_or(0, Vec::len)
}

fn number(word: &str) -> c_uint {
    word.parse().expect("a number")
}

/// The bytes that an answer has at a pointer.
///
/// # Safety
/// The pointer and the length are those of one answer that wasn't freed.
unsafe fn owned<'a>(at: *const u8, length: usize) -> &'a [u8] {
    if length == 0 { &[] } else { unsafe { slice::from_raw_parts(at, length) } }
}

fn main() {
    let words: Vec<String> = env::args().skip(1).collect();
    if words == ["version"] {
        // SAFETY: the version is a text that is always there.
        let version = unsafe { CStr::from_ptr(pclmin_version()) };
        println!("{}", version.to_str().expect("the version is ASCII"));
        return;
    }
    let dpi = number(&words[1]);
    let mut answer = Answer {
        bytes: ptr::null_mut(), length: 0, certificate: ptr::null_mut(), certificate_length: 0, line: ptr::null(), place: 0,
        pages: 0, fault: 0, kind: 0, job: 0, resolution: 0, holds: 0,
    };
    let jobs: Vec<Option<Vec<u8>>> = match words[0].as_str() {
        "preview" => vec![job(&words[4])],
        "grey" => vec![job(&words[5])],
        "min" => vec![job(&words[3])],
        _ => words[2..].iter().map(|name| job(name)).collect(),
    };
    let (first, first_len) = (at(&jobs[0]), len(&jobs[0]));
    // SAFETY: the declarations are those of pclmin.h, each pointer is that of bytes which outlive the call, and the answer is ours.
    let fault = unsafe {
        match words[0].as_str() {
            "preview" => pclmin_preview(first, first_len, dpi, number(&words[2]), number(&words[3]), &mut answer),
            "grey" => pclmin_grey(
                first, first_len, dpi, number(&words[2]), number(&words[3]), number(&words[4]), &mut answer,
            ),
            "min" => pclmin_min(first, first_len, dpi, number(&words[2]), &mut answer),
            "shrink" => pclmin_shrink(first, first_len, dpi, &mut answer),
            "same" => pclmin_same(first, first_len, at(&jobs[1]), len(&jobs[1]), dpi, &mut answer),
            "same_asked" => pclmin_same_asked(first, first_len, at(&jobs[1]), len(&jobs[1]), dpi, &mut answer),
            "check_pages" => pclmin_check_pages(
                first, first_len, at(&jobs[1]), len(&jobs[1]), at(&jobs[2]), len(&jobs[2]), dpi, &mut answer,
            ),
            "check" => pclmin_check(
                first, first_len, at(&jobs[1]), len(&jobs[1]), at(&jobs[2]), len(&jobs[2]), dpi, &mut answer,
            ),
            "page_count" => pclmin_page_count(first, first_len, dpi, &mut answer),
            "pages" => pclmin_pages(first, first_len, dpi, &mut answer),
            "explain" => pclmin_explain(first, first_len, dpi, &mut answer),
            _ => process::exit(9),
        }
    };
    if fault != answer.fault {
        process::exit(8);
    }
    // SAFETY: the answer is that of a call, and is freed below.
    let (line, bytes, certificate) = unsafe {
        (
            CStr::from_ptr(answer.line).to_bytes(),
            owned(answer.bytes, answer.length),
            owned(answer.certificate, answer.certificate_length),
        )
    };
    let numbers = format!(
        "{} {} {} {} {} {} {} {} {} {}\n",
        answer.fault, answer.kind, answer.place, answer.job, answer.resolution, answer.holds, answer.pages, line.len(), bytes.len(),
        certificate.len()
    );
    let mut out = std::io::stdout().lock();
    for part in [numbers.as_bytes(), line, bytes, certificate] {
        out.write_all(part).expect("standard output takes it");
    }
    out.flush().expect("standard output takes it");
    // SAFETY: the answer is that of a call; one that is emptied may be freed again.
    unsafe {
        pclmin_free(&mut answer);
        pclmin_free(&mut answer);
    }
}
