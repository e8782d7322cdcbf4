//! Safe functions over the library's exports. docs/include/gateway.h says what each does.

/// The exports themselves.
mod exports {
    use super::Row;

    extern "C" {
        pub fn gateway_to_record(
            table: *const u8,
            table_len: usize,
            address: *const u8,
            address_len: usize,
            out: *mut u8,
            out_len: usize,
        ) -> usize;
        pub fn gateway_to_address(
            table: *const u8,
            table_len: usize,
            record_text: *const u8,
            record_text_len: usize,
            out: *mut u8,
            out_len: usize,
        ) -> usize;
        pub fn gateway_check(
            table: *const u8,
            table_len: usize,
            out: *mut u8,
            out_len: usize,
        ) -> usize;
        pub fn gateway_shared_tail(
            first: *const u8,
            first_len: usize,
            second: *const u8,
            second_len: usize,
        ) -> usize;
        pub fn gateway_route(
            table: *const u8,
            table_len: usize,
            over: bool,
            input: *const u8,
            input_len: usize,
            last: bool,
            out: *mut u8,
            out_len: usize,
            taken: *mut usize,
            written: *mut usize,
        ) -> bool;
        pub fn gateway_list_to_record(
            text: *const u8,
            text_len: usize,
            rows: *const Row,
            row_count: usize,
            address: *const u8,
            address_len: usize,
            out: *mut u8,
            out_len: usize,
        ) -> usize;
        pub fn gateway_list_to_address(
            text: *const u8,
            text_len: usize,
            rows: *const Row,
            row_count: usize,
            record_text: *const u8,
            record_text_len: usize,
            out: *mut u8,
            out_len: usize,
        ) -> usize;
        pub fn gateway_list_check(
            text: *const u8,
            text_len: usize,
            rows: *const Row,
            row_count: usize,
            out: *mut u8,
            out_len: usize,
        ) -> usize;
        pub fn gateway_list_route(
            text: *const u8,
            text_len: usize,
            rows: *const Row,
            row_count: usize,
            over: bool,
            input: *const u8,
            input_len: usize,
            last: bool,
            out: *mut u8,
            out_len: usize,
            taken: *mut usize,
            written: *mut usize,
        ) -> bool;
        pub fn gateway_date_to_822(
            utc: *const u8,
            utc_len: usize,
            out: *mut u8,
            out_len: usize,
        ) -> usize;
        pub fn gateway_date_to_x400(
            date: *const u8,
            date_len: usize,
            out: *mut u8,
            out_len: usize,
        ) -> usize;
        pub fn gateway_mailbox(
            line: *const u8,
            line_len: usize,
            out: *mut u8,
            out_len: usize,
        ) -> usize;
        pub fn gateway_phrase(line: *const u8, line_len: usize) -> usize;
        pub fn gateway_restrict(
            text: *const u8,
            text_len: usize,
            out: *mut u8,
            out_len: usize,
        ) -> usize;
        pub fn gateway_unrestrict(
            text: *const u8,
            text_len: usize,
            out: *mut u8,
            out_len: usize,
        ) -> usize;
    }
}

/// Room for any answer under a table.
pub const ANSWER_ROOM: usize = 2126;

/// Room for any date, in either form.
pub const DATE_ROOM: usize = 24;

/// Room for the address of any mailbox.
pub const MAILBOX_ROOM: usize = 4096;

/// Why there is no text.
#[derive(Clone, Copy, Debug, PartialEq, Eq)]
pub enum Refusal {
    NoAddress,
    LongAddress,
    LongCarried,
    NoRecord,
    BadCarried,
    /// The first bad line, or entry of a list; 0 where the table's text is over 65,536 bytes.
    BadTable(usize),
}

#[derive(Clone, Debug, PartialEq, Eq)]
pub enum Verdict {
    Sound,
    /// The text of a record that does not come back.
    Unsound(Vec<u8>),
    /// The first bad line, or entry of a list; 0 where the table's text is over 65,536 bytes.
    Malformed(usize),
}

/// One entry of a list: its domain and its path, the fields parted by single tabs, stand at these places of the list's text. Any numbers are
/// taken; an entry that is bad is refused.
#[repr(C)]
#[derive(Clone, Copy, Debug, PartialEq, Eq)]
pub struct Row {
    /// The byte `G`, `D` or `R`.
    pub kind: usize,
    pub domain: usize,
    pub domain_len: usize,
    pub path: usize,
    pub path_len: usize,
}

/// A table whose rows the caller built: the gateway's entry first, and the text in which their domains and paths stand.
#[derive(Clone, Copy, Debug)]
pub struct List<'a> {
    pub text: &'a [u8],
    pub rows: &'a [Row],
}

/// How far a call of `route` or `list_route` came.
#[derive(Clone, Copy, Debug, PartialEq, Eq)]
pub struct Routed {
    /// What the next call takes as `over`.
    pub over: bool,
    pub taken: usize,
    pub written: usize,
}

// A slice's pointer is never null, and `out`, being `&mut`, overlaps nothing: that is all that the exports ask of a caller.

/// The text of an answer, which always fits in the room that was lent.
fn text(answer: usize, out: &[u8]) -> Result<Vec<u8>, Refusal> {
    let count = answer / 16;
    match answer % 16 {
        0 => Ok(out[..count].to_vec()),
        1 => Err(Refusal::NoAddress),
        2 => Err(Refusal::LongAddress),
        3 => Err(Refusal::LongCarried),
        4 => Err(Refusal::NoRecord),
        5 => Err(Refusal::BadCarried),
        7 => Err(Refusal::BadTable(count)),
        number => unreachable!("a mapping with room answered {number}"),
    }
}

/// The text of the record that an address maps to.
pub fn to_record(table: &[u8], address: &[u8]) -> Result<Vec<u8>, Refusal> {
    let mut out = [0; ANSWER_ROOM];
    let answer = unsafe {
        exports::gateway_to_record(
            table.as_ptr(),
            table.len(),
            address.as_ptr(),
            address.len(),
            out.as_mut_ptr(),
            out.len(),
        )
    };
    text(answer, &out)
}

/// The address that a record, given as text, goes out under.
pub fn to_address(table: &[u8], record_text: &[u8]) -> Result<Vec<u8>, Refusal> {
    let mut out = [0; ANSWER_ROOM];
    let answer = unsafe {
        exports::gateway_to_address(
            table.as_ptr(),
            table.len(),
            record_text.as_ptr(),
            record_text.len(),
            out.as_mut_ptr(),
            out.len(),
        )
    };
    text(answer, &out)
}

/// The verdict of an answer; a witness always fits in the room that was lent.
fn verdict(answer: usize, out: &[u8]) -> Verdict {
    match (answer % 16, answer / 16) {
        (0, _) => Verdict::Sound,
        (7, number) => Verdict::Malformed(number),
        (_, length) => Verdict::Unsound(out[..length].to_vec()),
    }
}

pub fn check(table: &[u8]) -> Verdict {
    let mut out = [0; ANSWER_ROOM];
    let answer =
        unsafe { exports::gateway_check(table.as_ptr(), table.len(), out.as_mut_ptr(), out.len()) };
    verdict(answer, &out)
}

/// The tail that two domains share by whole parts, letter case aside, inside the first.
pub fn shared_tail<'a>(first: &'a [u8], second: &[u8]) -> &'a [u8] {
    let length = unsafe {
        exports::gateway_shared_tail(first.as_ptr(), first.len(), second.as_ptr(), second.len())
    };
    &first[first.len() - length..]
}

/// Answers the whole lines of `input`, the part of a run that has arrived and is not yet taken.
pub fn route(table: &[u8], over: bool, input: &[u8], last: bool, out: &mut [u8]) -> Routed {
    let (mut taken, mut written) = (0, 0);
    let over = unsafe {
        exports::gateway_route(
            table.as_ptr(),
            table.len(),
            over,
            input.as_ptr(),
            input.len(),
            last,
            out.as_mut_ptr(),
            out.len(),
            &mut taken,
            &mut written,
        )
    };
    Routed {
        over,
        taken,
        written,
    }
}

/// `to_record` under a list.
pub fn list_to_record(list: List, address: &[u8]) -> Result<Vec<u8>, Refusal> {
    let mut out = [0; ANSWER_ROOM];
    let answer = unsafe {
        exports::gateway_list_to_record(
            list.text.as_ptr(),
            list.text.len(),
            list.rows.as_ptr(),
            list.rows.len(),
            address.as_ptr(),
            address.len(),
            out.as_mut_ptr(),
            out.len(),
        )
    };
    text(answer, &out)
}

/// `to_address` under a list.
pub fn list_to_address(list: List, record_text: &[u8]) -> Result<Vec<u8>, Refusal> {
    let mut out = [0; ANSWER_ROOM];
    let answer = unsafe {
        exports::gateway_list_to_address(
            list.text.as_ptr(),
            list.text.len(),
            list.rows.as_ptr(),
            list.rows.len(),
            record_text.as_ptr(),
            record_text.len(),
            out.as_mut_ptr(),
            out.len(),
        )
    };
    text(answer, &out)
}

/// `check` of a list.
pub fn list_check(list: List) -> Verdict {
    let mut out = [0; ANSWER_ROOM];
    let answer = unsafe {
        exports::gateway_list_check(
            list.text.as_ptr(),
            list.text.len(),
            list.rows.as_ptr(),
            list.rows.len(),
            out.as_mut_ptr(),
            out.len(),
        )
    };
    verdict(answer, &out)
}

/// `route` under a list.
pub fn list_route(list: List, over: bool, input: &[u8], last: bool, out: &mut [u8]) -> Routed {
    let (mut taken, mut written) = (0, 0);
    let over = unsafe {
        exports::gateway_list_route(
            list.text.as_ptr(),
            list.text.len(),
            list.rows.as_ptr(),
            list.rows.len(),
            over,
            input.as_ptr(),
            input.len(),
            last,
            out.as_mut_ptr(),
            out.len(),
            &mut taken,
            &mut written,
        )
    };
    Routed {
        over,
        taken,
        written,
    }
}

/// The text of a date, which always fits in the room that was lent; None where the other was malformed or impossible.
fn date(answer: usize, out: &[u8]) -> Option<Vec<u8>> {
    match answer % 16 {
        0 => Some(out[..answer / 16].to_vec()),
        10 => None,
        number => unreachable!("a date with room answered {number}"),
    }
}

/// The date-time of RFC 822 that a UTCTime of X.400 is.
pub fn date_to_822(utc: &[u8]) -> Option<Vec<u8>> {
    let mut out = [0; DATE_ROOM];
    let answer = unsafe {
        exports::gateway_date_to_822(utc.as_ptr(), utc.len(), out.as_mut_ptr(), out.len())
    };
    date(answer, &out)
}

/// The UTCTime of X.400 that a date-time of RFC 822 is.
pub fn date_to_x400(date_time: &[u8]) -> Option<Vec<u8>> {
    let mut out = [0; DATE_ROOM];
    let answer = unsafe {
        exports::gateway_date_to_x400(
            date_time.as_ptr(),
            date_time.len(),
            out.as_mut_ptr(),
            out.len(),
        )
    };
    date(answer, &out)
}

/// A header mailbox, taken apart.
#[derive(Clone, Debug, PartialEq, Eq)]
pub struct Mailbox<'a> {
    pub address: Vec<u8>,
    /// From the first word to the last, as it stands in the line; empty where there is none.
    pub phrase: &'a [u8],
}

/// Why a line gives no mailbox.
#[derive(Clone, Copy, Debug, PartialEq, Eq)]
pub enum NoMailbox {
    /// It is over 4,096 bytes.
    LongLine,
    /// Comments stand more than eight deep in each other.
    DeepComment,
    OtherShape,
}

/// The bare address of a header mailbox, and its phrase.
pub fn mailbox(line: &[u8]) -> Result<Mailbox<'_>, NoMailbox> {
    let mut out = [0; MAILBOX_ROOM];
    let answer =
        unsafe { exports::gateway_mailbox(line.as_ptr(), line.len(), out.as_mut_ptr(), out.len()) };
    match answer % 16 {
        0 => Ok(Mailbox {
            address: out[..answer / 16].to_vec(),
            phrase: phrase(line),
        }),
        1 => Err(NoMailbox::OtherShape),
        2 => Err(NoMailbox::LongLine),
        9 => Err(NoMailbox::DeepComment),
        number => unreachable!("a mailbox with room answered {number}"),
    }
}

/// The phrase of a header mailbox; empty where there is none.
fn phrase(line: &[u8]) -> &[u8] {
    let place = unsafe { exports::gateway_phrase(line.as_ptr(), line.len()) };
    let (start, length) = (place / 65536, place % 65536);
    &line[start..start + length]
}

/// Text that was coded or decoded, which always fits in the room that was lent; None where the other has a byte over 127.
fn coded(answer: usize, out: &[u8]) -> Option<Vec<u8>> {
    match answer % 16 {
        0 => Some(out[..answer / 16].to_vec()),
        1 => None,
        number => unreachable!("text with room answered {number}"),
    }
}

/// The restricted encoding of a local part's unquoted text.
pub fn restrict(text: &[u8]) -> Option<Vec<u8>> {
    let mut out = vec![0; 5 * text.len()];
    let answer = unsafe {
        exports::gateway_restrict(text.as_ptr(), text.len(), out.as_mut_ptr(), out.len())
    };
    coded(answer, &out)
}

/// The text that a restricted encoding stands for, or the text itself where it is none.
pub fn unrestrict(text: &[u8]) -> Option<Vec<u8>> {
    let mut out = vec![0; text.len()];
    let answer = unsafe {
        exports::gateway_unrestrict(text.as_ptr(), text.len(), out.as_mut_ptr(), out.len())
    };
    coded(answer, &out)
}
