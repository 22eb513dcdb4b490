//! The calls of `vollikash.h`, made safe. All unsafe code of the crate is here.
//!
//! What the header asks of each call holds by the types: a slice or a reference is never NULL, is
//! aligned, has at most `isize::MAX` bytes and is changed by nobody else, and a `&mut` overlaps
//! nothing else. A `SAFETY` comment names what else a call asks. A `char` of the header is a `u8` here.

use std::os::raw::{c_int, c_void};
use std::ptr;

/// The version of the header.
const VERSION: c_int = 1_000_000;

const OK: c_int = 0;
const NO_ROOM: c_int = 80;
const DONE: c_int = 81;
const RANGE: c_int = 82;
const MESSAGE_ROOM: usize = 80;

/// The operations of changes.
pub(crate) const INSERT: c_int = 18;
pub(crate) const DELETE: c_int = 9;
pub(crate) const UPDATE: c_int = 23;

/// The kinds of fields.
pub(crate) const UNDEFINED: c_int = 0;
pub(crate) const INTEGER: c_int = 1;
pub(crate) const TEXT: c_int = 3;
pub(crate) const BLOB: c_int = 4;
pub(crate) const NULL: c_int = 5;

/// A side of a change.
#[derive(Clone, Copy)]
pub(crate) enum Side {
    Old = 0,
    New = 1,
}

/// The report of a call: `struct vollikash_fault`.
#[repr(C)]
#[derive(Clone, Copy, Default)]
pub(crate) struct Fault {
    pub(crate) code: c_int,
    pub(crate) file: c_int,
    pub(crate) place: usize,
}

impl Fault {
    /// Returns the report of a call that returns no more than a code.
    fn of(code: c_int) -> Self {
        Self {
            code,
            ..Self::default()
        }
    }
}

/// Where a change lies in a file: `struct vollikash_change`.
#[repr(C)]
#[derive(Clone, Copy, Default)]
struct Spans {
    name: usize,
    name_length: usize,
    flags: usize,
    columns: usize,
    records: usize,
    records_length: usize,
    operation: c_int,
    indirect: c_int,
}

/// A value, or where it lies in a file: `struct vollikash_field`.
#[repr(C)]
#[derive(Clone, Copy, Default)]
pub(crate) struct Field {
    pub(crate) kind: c_int,
    pub(crate) integer: i64,
    pub(crate) offset: usize,
    pub(crate) length: usize,
}

/// A concatenation to which files are added, or NULL for one without files: `struct vollikash_group`.
#[repr(C)]
pub(crate) struct Group {
    at: *mut c_void,
}

/// A store, or NULL for one that is not open: `struct vollikash_store`.
#[repr(C)]
pub(crate) struct Store {
    at: *mut c_void,
}

// SAFETY: any thread may use a store if something orders the calls, and whoever moves it does.
unsafe impl Send for Store {}

extern "C" {
    fn vollikash_version() -> c_int;
    fn vollikash_message(code: c_int, out: *mut u8, room: usize, written: *mut usize) -> c_int;
    fn vollikash_check(file: *const u8, length: usize, fault: *mut Fault) -> c_int;
    fn vollikash_next(
        file: *const u8,
        length: usize,
        place: *mut usize,
        change: *mut Spans,
        fault: *mut Fault,
    ) -> c_int;
    fn vollikash_value(
        file: *const u8,
        length: usize,
        change: *const Spans,
        side: c_int,
        column: usize,
        value: *mut Field,
    ) -> c_int;
    fn vollikash_values(
        file: *const u8,
        length: usize,
        change: *const Spans,
        side: c_int,
        values: *mut Field,
        count: usize,
    ) -> c_int;
    fn vollikash_group_add(
        group: *mut Group,
        file: *const u8,
        length: usize,
        fault: *mut Fault,
    ) -> c_int;
    fn vollikash_group_limit(group: *const Group) -> usize;
    fn vollikash_group_output(
        group: *mut Group,
        out: *mut u8,
        room: usize,
        written: *mut usize,
        fault: *mut Fault,
    ) -> c_int;
    fn vollikash_group_close(group: *mut Group);
    fn vollikash_store_open(
        store: *mut Store,
        file: *const u8,
        length: usize,
        fault: *mut Fault,
    ) -> c_int;
    fn vollikash_store_call(
        store: *mut Store,
        call: *const u8,
        length: usize,
        answered: *mut usize,
    ) -> c_int;
    fn vollikash_store_answer(
        store: *mut Store,
        out: *mut u8,
        room: usize,
        written: *mut usize,
    ) -> c_int;
    fn vollikash_store_save(
        store: *mut Store,
        out: *mut u8,
        room: usize,
        written: *mut usize,
    ) -> c_int;
    fn vollikash_store_close(store: *mut Store);
}

/// Returns the version of the library.
pub(crate) fn version() -> c_int {
    // SAFETY: the call takes nothing.
    unsafe { vollikash_version() }
}

/// Expects the version of the header: another one can have other structs.
///
/// # Panics
///
/// If the library has another version.
fn expect_version() {
    let version = version();
    assert_eq!(version, VERSION, "libvollikash.a has another version");
}

/// Returns the sentence for a number.
pub(crate) fn message(code: c_int) -> String {
    let mut out = [0_u8; MESSAGE_ROOM];
    let mut written = 0;
    // SAFETY: `out` has as many bytes as its length says.
    let status = unsafe { vollikash_message(code, out.as_mut_ptr(), out.len(), &mut written) };
    assert_eq!(status, OK, "the library has no sentence for {code}");
    let sentence = out[..written]
        .strip_suffix(&[0])
        .expect("a zero byte is last");
    String::from_utf8_lossy(sentence).into_owned()
}

/// Checks a file.
pub(crate) fn check(file: &[u8]) -> Result<(), Fault> {
    expect_version();
    let mut fault = Fault::default();
    // SAFETY: `file` has as many bytes as its length says.
    match unsafe { vollikash_check(file.as_ptr(), file.len(), &mut fault) } {
        OK => Ok(()),
        _ => Err(fault),
    }
}

/// What a call reports that makes bytes.
pub(crate) enum Made {
    /// The bytes are in the buffer.
    Done,
    /// The call needs this number of bytes.
    NoRoom(usize),
    /// The call refuses its files.
    Refused(Fault),
}

/// Returns what a call reports that took an empty buffer and its capacity.
///
/// # Safety
///
/// If the code is OK, the call has put that many bytes into the buffer.
unsafe fn made(out: &mut Vec<u8>, code: c_int, written: usize, fault: Fault) -> Made {
    match code {
        OK => {
            assert!(
                written <= out.capacity(),
                "the library wrote {written} bytes"
            );
            // SAFETY: the caller promises that they are there, and there is room for them.
            unsafe { out.set_len(written) };
            Made::Done
        }
        NO_ROOM => Made::NoRoom(written),
        _ => Made::Refused(fault),
    }
}

/// Declares the calls that make bytes from slices, and makes them safe.
macro_rules! makes {
    ($($name:ident = $call:ident($($slice:ident: $item:ty),+);)+) => {
        extern "C" {
            $(fn $call(
                $($slice: *const $item, _: usize,)+
                out: *mut u8,
                room: usize,
                written: *mut usize,
                fault: *mut Fault,
            ) -> c_int;)+
        }

        $(
            /// Puts what the call makes into an empty buffer, within its capacity.
            pub(crate) fn $name($($slice: &[$item],)+ out: &mut Vec<u8>) -> Made {
                expect_version();
                assert!(out.is_empty(), "the buffer is not empty");
                let (room, at) = (out.capacity(), out.as_mut_ptr());
                let (mut written, mut fault) = (0, Fault::default());
                // SAFETY: each slice has as many items as its length says, and `out` has room for as
                // many bytes as its capacity says. They may be uninitialized. The slices may overlap
                // each other.
                let code = unsafe {
                    $call($($slice.as_ptr(), $slice.len(),)+ at, room, &mut written, &mut fault)
                };
                // SAFETY: the call has put that many bytes into the buffer if it returns OK.
                unsafe { made(out, code, written, fault) }
            }
        )+
    };
}

makes! {
    invert = vollikash_invert(file: u8);
    number_keys = vollikash_number_keys(file: u8);
    dump = vollikash_dump(file: u8);
    sql = vollikash_sql(file: u8);
    concat = vollikash_concat(first: u8, second: u8);
    concat_many = vollikash_concat_many(files: u8, lengths: usize);
    select = vollikash_select(file: u8, names: u8);
}

impl Default for Group {
    fn default() -> Self {
        Self {
            at: ptr::null_mut(),
        }
    }
}

impl Group {
    /// Adds a file. After an error the group has what it had.
    pub(crate) fn add(&mut self, file: &[u8]) -> Result<(), Fault> {
        expect_version();
        let mut fault = Fault::default();
        // SAFETY: `file` has as many bytes as its length says. The group is as a call left it, or
        // NULL: nothing else changes its private field, and it is not copied.
        match unsafe { vollikash_group_add(self, file.as_ptr(), file.len(), &mut fault) } {
            OK => Ok(()),
            _ => Err(fault),
        }
    }

    /// Returns how many bytes are enough for the file of the group.
    pub(crate) fn limit(&mut self) -> usize {
        // SAFETY: the group is as a call left it, or NULL.
        unsafe { vollikash_group_limit(self) }
    }

    /// Puts the file of the group into an empty buffer, within its capacity.
    pub(crate) fn output(&mut self, out: &mut Vec<u8>) -> Made {
        assert!(out.is_empty(), "the buffer is not empty");
        let (room, at) = (out.capacity(), out.as_mut_ptr());
        let (mut written, mut fault) = (0, Fault::default());
        // SAFETY: the group is as a call left it, or NULL. `out` has room for as many bytes as its
        // capacity says. They may be uninitialized.
        let code = unsafe { vollikash_group_output(self, at, room, &mut written, &mut fault) };
        // SAFETY: the call has put that many bytes into the buffer if it returns OK.
        unsafe { made(out, code, written, fault) }
    }
}

impl Drop for Group {
    fn drop(&mut self) {
        // SAFETY: the group is as a call left it, or NULL, and is not used after that.
        unsafe { vollikash_group_close(self) }
    }
}

impl Default for Store {
    fn default() -> Self {
        Self {
            at: ptr::null_mut(),
        }
    }
}

impl Store {
    /// Opens the store in the bytes of a file.
    pub(crate) fn open(file: &[u8]) -> Result<Self, Fault> {
        expect_version();
        let (mut store, mut fault) = (Self::default(), Fault::default());
        // SAFETY: the store is {0}. `file` has as many bytes as its length says.
        match unsafe { vollikash_store_open(&mut store, file.as_ptr(), file.len(), &mut fault) } {
            OK => Ok(store),
            _ => Err(fault),
        }
    }

    /// Carries out a call, and returns the length of its answer.
    pub(crate) fn call(&mut self, call: &[u8]) -> Result<usize, Fault> {
        let mut answered = 0;
        // SAFETY: the store is as a call left it: nothing else changes its private field, and it is
        // not copied. `call` has as many bytes as its length says.
        match unsafe { vollikash_store_call(self, call.as_ptr(), call.len(), &mut answered) } {
            OK => Ok(answered),
            code => Err(Fault::of(code)),
        }
    }

    /// Puts the answer to the last call into an empty buffer, within its capacity.
    pub(crate) fn answer(&mut self, out: &mut Vec<u8>) -> Made {
        self.fill(out, vollikash_store_answer)
    }

    /// Puts the bytes of the store's file into an empty buffer, within its capacity.
    pub(crate) fn save(&mut self, out: &mut Vec<u8>) -> Made {
        self.fill(out, vollikash_store_save)
    }

    fn fill(
        &mut self,
        out: &mut Vec<u8>,
        call: unsafe extern "C" fn(*mut Self, *mut u8, usize, *mut usize) -> c_int,
    ) -> Made {
        assert!(out.is_empty(), "the buffer is not empty");
        let (room, at) = (out.capacity(), out.as_mut_ptr());
        let mut written = 0;
        // SAFETY: the call is one of the two above. The store is as a call left it. `out` has room
        // for as many bytes as its capacity says. They may be uninitialized.
        let code = unsafe { call(self, at, room, &mut written) };
        // SAFETY: the call has put that many bytes into the buffer if it returns OK.
        unsafe { made(out, code, written, Fault::of(code)) }
    }
}

impl Drop for Store {
    fn drop(&mut self) {
        // SAFETY: the store is as a call left it, or NULL, and is not used after that.
        unsafe { vollikash_store_close(self) }
    }
}

/// A place in a file, from which the next change is read.
#[derive(Clone)]
pub(crate) struct Cursor<'a> {
    file: &'a [u8],
    place: usize,
    spans: Spans,
}

impl<'a> Cursor<'a> {
    /// Returns the start of a file.
    pub(crate) fn new(file: &'a [u8]) -> Self {
        expect_version();
        let spans = Spans::default();
        Self {
            file,
            place: 0,
            spans,
        }
    }

    /// Returns the next change, or `None` at the end of the file. After an error the cursor is
    /// unchanged.
    pub(crate) fn next(&mut self) -> Result<Option<Located<'a>>, Fault> {
        let (file, length) = (self.file.as_ptr(), self.file.len());
        let mut fault = Fault::default();
        // SAFETY: `file` has `length` bytes. The place is 0, or place and spans are as the previous
        // call left them for the same file: nothing else changes these private fields.
        let code =
            unsafe { vollikash_next(file, length, &mut self.place, &mut self.spans, &mut fault) };
        let (file, spans) = (self.file, self.spans);
        match code {
            OK => Ok(Some(Located { file, spans })),
            DONE => Ok(None),
            _ => Err(fault),
        }
    }
}

/// A change with its file.
#[derive(Clone, Copy)]
pub(crate) struct Located<'a> {
    file: &'a [u8],
    spans: Spans,
}

impl<'a> Located<'a> {
    /// Returns some bytes of the file.
    ///
    /// # Panics
    ///
    /// If they are not in the file.
    pub(crate) fn bytes(&self, offset: usize, length: usize) -> &'a [u8] {
        &self.file[offset..][..length]
    }

    pub(crate) fn name(&self) -> &'a [u8] {
        self.bytes(self.spans.name, self.spans.name_length)
    }

    pub(crate) fn flags(&self) -> &'a [u8] {
        self.bytes(self.spans.flags, self.spans.columns)
    }

    pub(crate) fn operation(&self) -> c_int {
        self.spans.operation
    }

    pub(crate) fn is_indirect(&self) -> bool {
        self.spans.indirect != 0
    }

    /// Returns the field of a column on one side, or `None` if there is no such column.
    pub(crate) fn field(&self, side: Side, column: usize) -> Option<Field> {
        let (file, length) = (self.file.as_ptr(), self.file.len());
        let mut field = Field::default();
        // SAFETY: `file` has `length` bytes. The spans are as `vollikash_next` left them for them.
        let code = unsafe {
            vollikash_value(file, length, &self.spans, side as c_int, column, &mut field)
        };
        match code {
            OK => Some(field),
            RANGE => None,
            _ => panic!("the library returned the number {code} for a value"),
        }
    }

    /// Returns the field of each column on one side.
    pub(crate) fn fields(&self, side: Side) -> Vec<Field> {
        let (file, length) = (self.file.as_ptr(), self.file.len());
        // The flags lie in the file, so there are no more columns than bytes.
        let mut fields = vec![Field::default(); self.flags().len()];
        let (out, count) = (fields.as_mut_ptr(), fields.len());
        // SAFETY: `file` has `length` bytes. The spans are as `vollikash_next` left them for them.
        // `out` has room for `count` fields.
        let code =
            unsafe { vollikash_values(file, length, &self.spans, side as c_int, out, count) };
        assert_eq!(code, OK, "the library has no values");
        fields
    }
}

#[cfg(test)]
mod tests {
    use super::*;

    use std::io::Write;
    use std::mem::size_of;
    use std::path::Path;
    use std::process::{Command, Stdio};

    /// Where the header is, in the repository and in a release.
    const HEADERS: [&str; 2] = ["../c", "../../include"];

    /// Returns assertions of C on the size of a struct and the offsets of its fields.
    macro_rules! layout {
        ($name:literal, $type:ident: $($field:ident),*) => {{
            let it = $type::default();
            let start = &it as *const $type as usize;
            let mut all = vec![format!("sizeof(struct {}) == {}", $name, size_of::<$type>())];
            $(
                let offset = &it.$field as *const _ as usize - start;
                let field = stringify!($field);
                all.push(format!("offsetof(struct {}, {}) == {}", $name, field, offset));
            )*
            all
        }};
    }

    /// Returns what has to hold in C.
    fn facts() -> Vec<String> {
        let mut facts = layout!("vollikash_fault", Fault: code, file, place);
        facts.extend(layout!(
            "vollikash_change", Spans:
            name, name_length, flags, columns, records, records_length, operation, indirect
        ));
        facts.extend(layout!("vollikash_field", Field: kind, integer, offset, length));
        facts.extend(layout!("vollikash_group", Group: at));
        facts.extend(layout!("vollikash_store", Store: at));
        facts.push(format!("VOLLIKASH_MESSAGE_ROOM == {MESSAGE_ROOM}"));
        facts.push(format!("VOLLIKASH_VERSION == {VERSION}"));
        facts
    }

    /// A C compiler accepts the assertions. Without one, or without the header, nothing is tested.
    #[test]
    fn layouts_are_those_of_the_header() {
        let crate_folder = Path::new(env!("CARGO_MANIFEST_DIR"));
        let folders = HEADERS.iter().map(|it| crate_folder.join(it));
        let mut command = Command::new("cc");
        match folders
            .into_iter()
            .find(|it| it.join("vollikash.h").exists())
        {
            Some(folder) => command.arg("-I").arg(folder),
            None => return,
        };
        command.args(["-std=c11", "-fsyntax-only", "-x", "c", "-"]);
        let mut compiler = match command.stdin(Stdio::piped()).spawn() {
            Ok(compiler) => compiler,
            Err(_) => return,
        };
        let mut source = "#include <stddef.h>\n#include \"vollikash.h\"\n".to_string();
        for fact in facts() {
            source.push_str(&format!("_Static_assert({fact}, \"{fact}\");\n"));
        }
        let mut input = compiler.stdin.take().unwrap();
        input.write_all(source.as_bytes()).unwrap();
        drop(input);
        assert!(compiler.wait().unwrap().success());
    }
}
