//! The calls of `include/cedar_formatter.h`.
use crate::{Config, Error, Fault, Place};

#[repr(C)]
struct Answer {
    kind: u32,
    number: usize,
}

#[repr(C)]
struct PlaceAnswer {
    kind: u32,
    line: usize,
    column: usize,
}

#[repr(C)]
#[derive(Default)]
struct FaultAnswer {
    kind: u32,
    at: usize,
    start: usize,
    end: usize,
    unclosed_start: usize,
    unclosed_end: usize,
    next: usize,
    length: usize,
}

const RESULT: u32 = 0;
const NO_ROOM: u32 = 10;

extern "C" {
    fn cedar_format(
        text: *const u8,
        len: usize,
        width: usize,
        indent: isize,
        out: *mut u8,
        room: usize,
        answer: *mut Answer,
    );
    fn cedar_is_formatted(
        text: *const u8,
        len: usize,
        width: usize,
        indent: isize,
        answer: *mut Answer,
    );
    fn cedar_same_layout(
        a: *const u8,
        a_len: usize,
        b: *const u8,
        b_len: usize,
        answer: *mut Answer,
    );
    fn cedar_place(text: *const u8, len: usize, at: usize, place: *mut PlaceAnswer);
    fn cedar_next_fault(
        text: *const u8,
        len: usize,
        from: usize,
        out: *mut u8,
        room: usize,
        fault: *mut FaultAnswer,
    );
    fn cedar_version(out: *mut u8, room: usize, answer: *mut Answer);
}

impl Answer {
    fn new() -> Self {
        Answer {
            kind: RESULT,
            number: 0,
        }
    }

    fn result(&self) -> Result<usize, Error> {
        let at = self.number;
        match self.kind {
            RESULT => Ok(self.number),
            1 => Err(Error::UnknownCharacter { at }),
            2 => Err(Error::UnfinishedString { at }),
            3 => Err(Error::NumberTooLarge { at }),
            4 => Err(Error::Grammar { at }),
            5 => Err(Error::TooDeep { at }),
            8 => Err(Error::OutOfMemory),
            // (6 and 7 are proved never to occur, a str is UTF-8, and only `format` has a buffer)
            kind => unreachable!("an answer of kind {kind}"),
        }
    }
}

pub fn format(text: &str, config: &Config) -> Result<String, Error> {
    let mut room = text.len().saturating_mul(2).saturating_add(64);
    loop {
        let mut out: Vec<u8> = Vec::new();
        out.try_reserve_exact(room)
            .map_err(|_| Error::OutOfMemory)?;
        let mut answer = Answer::new();
        // SAFETY: the text is valid UTF-8 of that length, and `out` has `room` bytes that nothing else refers to.
        unsafe {
            cedar_format(
                text.as_ptr(),
                text.len(),
                config.line_width,
                config.indent_width,
                out.as_mut_ptr(),
                room,
                &mut answer,
            );
        }
        if answer.kind == NO_ROOM {
            room = answer.number;
            continue;
        }
        let len = answer.result()?;
        // SAFETY: a result's length is at most `room`, and the call has written that many bytes.
        unsafe { out.set_len(len) };
        return Ok(String::from_utf8(out).expect("a layout is UTF-8"));
    }
}

pub fn is_formatted(text: &str, config: &Config) -> Result<bool, Error> {
    let mut answer = Answer::new();
    // SAFETY: the text is valid UTF-8 of that length.
    unsafe {
        cedar_is_formatted(
            text.as_ptr(),
            text.len(),
            config.line_width,
            config.indent_width,
            &mut answer,
        )
    };
    Ok(answer.result()? == 1)
}

pub fn same_layout(a: &str, b: &str) -> Result<bool, Error> {
    let mut answer = Answer::new();
    // SAFETY: the texts are valid UTF-8 of those lengths; they may overlap.
    unsafe { cedar_same_layout(a.as_ptr(), a.len(), b.as_ptr(), b.len(), &mut answer) };
    Ok(answer.result()? == 1)
}

/// The first fault from the byte `from` on, and the byte from which to search for the next one.
pub fn next_fault(text: &str, from: usize) -> Result<Option<(Fault, usize)>, Error> {
    let mut out = vec![0; 500];
    let mut found = FaultAnswer::default();
    loop {
        // SAFETY: the text is valid UTF-8 of that length, and `out` has as many bytes as it says.
        unsafe {
            cedar_next_fault(
                text.as_ptr(),
                text.len(),
                from,
                out.as_mut_ptr(),
                out.len(),
                &mut found,
            );
        }
        if found.length <= out.len() {
            break;
        }
        out.resize(found.length, 0);
    }
    if found.kind == RESULT {
        return Ok(None);
    }
    let answer = Answer {
        kind: found.kind,
        number: found.at,
    };
    let error = match answer.result() {
        Err(Error::OutOfMemory) => return Err(Error::OutOfMemory),
        Err(error) => error,
        Ok(_) => unreachable!("a fault has a kind"),
    };
    out.truncate(found.length);
    let fault = Fault {
        error,
        start: found.start,
        end: found.end,
        unclosed: (found.unclosed_end > 0).then_some(found.unclosed_start..found.unclosed_end),
        message: String::from_utf8(out).expect("a message is UTF-8"),
    };
    Ok(Some((fault, found.next)))
}

pub fn place(text: &str, at: usize) -> Place {
    let mut found = PlaceAnswer {
        kind: RESULT,
        line: 0,
        column: 0,
    };
    // SAFETY: the text is valid UTF-8 of that length.
    unsafe { cedar_place(text.as_ptr(), text.len(), at, &mut found) };
    debug_assert_eq!(found.kind, RESULT);
    Place {
        line: found.line,
        column: found.column,
    }
}

pub fn version() -> String {
    let mut answer = Answer::new();
    // SAFETY: a room of 0 bytes isn't written to.
    unsafe { cedar_version(std::ptr::null_mut(), 0, &mut answer) };
    let mut out = vec![0; answer.number];
    // SAFETY: `out` has as many bytes as it says, and nothing else refers to them.
    unsafe { cedar_version(out.as_mut_ptr(), out.len(), &mut answer) };
    String::from_utf8(out).expect("a version is UTF-8")
}
