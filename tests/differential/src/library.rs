//! The exports of the compiled library, as functions of slices. docs/include/gateway.h says what they do.

mod exports {
    use super::Row;

    extern "C" {
        pub fn gateway_to_record(
            table: *const u8,
            table_len: usize,
            address: *const u8,
            address_len: usize,
            out: *mut u8,
            out_len: usize,
        ) -> usize;
        pub fn gateway_to_address(
            table: *const u8,
            table_len: usize,
            record_text: *const u8,
            record_text_len: usize,
            out: *mut u8,
            out_len: usize,
        ) -> usize;
        pub fn gateway_check(
            table: *const u8,
            table_len: usize,
            out: *mut u8,
            out_len: usize,
        ) -> usize;
        pub fn gateway_shared_tail(
            first: *const u8,
            first_len: usize,
            second: *const u8,
            second_len: usize,
        ) -> usize;
        pub fn gateway_route(
            table: *const u8,
            table_len: usize,
            over: bool,
            input: *const u8,
            input_len: usize,
            last: bool,
            out: *mut u8,
            out_len: usize,
            taken: *mut usize,
            written: *mut usize,
        ) -> bool;
        pub fn gateway_list_to_record(
            text: *const u8,
            text_len: usize,
            rows: *const Row,
            row_count: usize,
            address: *const u8,
            address_len: usize,
            out: *mut u8,
            out_len: usize,
        ) -> usize;
        pub fn gateway_list_to_address(
            text: *const u8,
            text_len: usize,
            rows: *const Row,
            row_count: usize,
            record_text: *const u8,
            record_text_len: usize,
            out: *mut u8,
            out_len: usize,
        ) -> usize;
        pub fn gateway_list_check(
            text: *const u8,
            text_len: usize,
            rows: *const Row,
            row_count: usize,
            out: *mut u8,
            out_len: usize,
        ) -> usize;
        pub fn gateway_list_route(
            text: *const u8,
            text_len: usize,
            rows: *const Row,
            row_count: usize,
            over: bool,
            input: *const u8,
            input_len: usize,
            last: bool,
            out: *mut u8,
            out_len: usize,
            taken: *mut usize,
            written: *mut usize,
        ) -> bool;
        pub fn gateway_date_to_822(
            utc: *const u8,
            utc_len: usize,
            out: *mut u8,
            out_len: usize,
        ) -> usize;
        pub fn gateway_date_to_x400(
            date: *const u8,
            date_len: usize,
            out: *mut u8,
            out_len: usize,
        ) -> usize;
        pub fn gateway_mailbox(
            line: *const u8,
            line_len: usize,
            out: *mut u8,
            out_len: usize,
        ) -> usize;
        pub fn gateway_phrase(line: *const u8, line_len: usize) -> usize;
        pub fn gateway_restrict(
            text: *const u8,
            text_len: usize,
            out: *mut u8,
            out_len: usize,
        ) -> usize;
        pub fn gateway_unrestrict(
            text: *const u8,
            text_len: usize,
            out: *mut u8,
            out_len: usize,
        ) -> usize;
    }
}

/// Room for any answer under a table: GATEWAY_ANSWER_ROOM of the header.
pub const ANSWER_ROOM: usize = 2126;

/// An entry of a list, as the library reads it.
#[repr(C)]
#[derive(Clone, Copy, Debug, PartialEq, Eq)]
pub struct Row {
    pub kind: usize,
    pub domain: usize,
    pub domain_len: usize,
    pub path: usize,
    pub path_len: usize,
}

/// A table as a call gets it: its text, or a text and a list of rows over it.
#[derive(Clone, Copy)]
pub enum Given<'a> {
    Text(&'a [u8]),
    List(&'a [u8], &'a [Row]),
}

/// A mapping: under a table, of a text, into a buffer.
pub type Mapping = fn(Given, &[u8], &mut [u8]) -> usize;

/// One text made of another, without a table: of a text, into a buffer.
pub type Conversion = fn(&[u8], &mut [u8]) -> usize;

pub fn to_record(table: Given, address: &[u8], out: &mut [u8]) -> usize {
    match table {
        Given::Text(table) => unsafe {
            exports::gateway_to_record(
                table.as_ptr(),
                table.len(),
                address.as_ptr(),
                address.len(),
                out.as_mut_ptr(),
                out.len(),
            )
        },
        Given::List(text, rows) => unsafe {
            exports::gateway_list_to_record(
                text.as_ptr(),
                text.len(),
                rows.as_ptr(),
                rows.len(),
                address.as_ptr(),
                address.len(),
                out.as_mut_ptr(),
                out.len(),
            )
        },
    }
}

pub fn to_address(table: Given, record_text: &[u8], out: &mut [u8]) -> usize {
    match table {
        Given::Text(table) => unsafe {
            exports::gateway_to_address(
                table.as_ptr(),
                table.len(),
                record_text.as_ptr(),
                record_text.len(),
                out.as_mut_ptr(),
                out.len(),
            )
        },
        Given::List(text, rows) => unsafe {
            exports::gateway_list_to_address(
                text.as_ptr(),
                text.len(),
                rows.as_ptr(),
                rows.len(),
                record_text.as_ptr(),
                record_text.len(),
                out.as_mut_ptr(),
                out.len(),
            )
        },
    }
}

pub fn check(table: Given, out: &mut [u8]) -> usize {
    match table {
        Given::Text(table) => unsafe {
            exports::gateway_check(table.as_ptr(), table.len(), out.as_mut_ptr(), out.len())
        },
        Given::List(text, rows) => unsafe {
            exports::gateway_list_check(
                text.as_ptr(),
                text.len(),
                rows.as_ptr(),
                rows.len(),
                out.as_mut_ptr(),
                out.len(),
            )
        },
    }
}

pub fn shared_tail(first: &[u8], second: &[u8]) -> usize {
    unsafe {
        exports::gateway_shared_tail(first.as_ptr(), first.len(), second.as_ptr(), second.len())
    }
}

/// How far a call came: the state, what it took and what it wrote.
pub fn route(
    table: Given,
    over: bool,
    input: &[u8],
    last: bool,
    out: &mut [u8],
) -> (bool, usize, usize) {
    // Values that no call can leave, so that one that is not stored is seen.
    let (mut taken, mut written) = (usize::MAX, usize::MAX);
    let over = match table {
        Given::Text(table) => unsafe {
            exports::gateway_route(
                table.as_ptr(),
                table.len(),
                over,
                input.as_ptr(),
                input.len(),
                last,
                out.as_mut_ptr(),
                out.len(),
                &mut taken,
                &mut written,
            )
        },
        Given::List(text, rows) => unsafe {
            exports::gateway_list_route(
                text.as_ptr(),
                text.len(),
                rows.as_ptr(),
                rows.len(),
                over,
                input.as_ptr(),
                input.len(),
                last,
                out.as_mut_ptr(),
                out.len(),
                &mut taken,
                &mut written,
            )
        },
    };
    (over, taken, written)
}

pub fn date_to_822(utc: &[u8], out: &mut [u8]) -> usize {
    unsafe { exports::gateway_date_to_822(utc.as_ptr(), utc.len(), out.as_mut_ptr(), out.len()) }
}

pub fn date_to_x400(date: &[u8], out: &mut [u8]) -> usize {
    unsafe { exports::gateway_date_to_x400(date.as_ptr(), date.len(), out.as_mut_ptr(), out.len()) }
}

pub fn mailbox(line: &[u8], out: &mut [u8]) -> usize {
    unsafe { exports::gateway_mailbox(line.as_ptr(), line.len(), out.as_mut_ptr(), out.len()) }
}

pub fn phrase(line: &[u8]) -> usize {
    unsafe { exports::gateway_phrase(line.as_ptr(), line.len()) }
}

pub fn restrict(text: &[u8], out: &mut [u8]) -> usize {
    unsafe { exports::gateway_restrict(text.as_ptr(), text.len(), out.as_mut_ptr(), out.len()) }
}

pub fn unrestrict(text: &[u8], out: &mut [u8]) -> usize {
    unsafe { exports::gateway_unrestrict(text.as_ptr(), text.len(), out.as_mut_ptr(), out.len()) }
}
