//! Bodies of Smithy services from wire to wire, in process, by the proved library `libsmithy_transcode.a`.
//!
//! A [`Table`] is accepted once. [`Table::transcode`] then writes the canonical body, in the wanted wire, of the value that an input
//! spells, or says why there is none. [`Table::compare`] tells where two bodies differ, [`Table::findings`] all that is wrong with one,
//! and [`Table::form`] reads a form of AWS Query.
//!
//! ```
//! use smithy_transcode::{Refusal, Source, Table, Target};
//!
//! let mut table = Table::accept(b"structure Put\nmember Name string\n")?;
//! let mut body = Vec::new();
//! table.transcode("Put", Source::Json, br#"{"Name" : "Emma"}"#, Target::Json, &mut body)?;
//! assert_eq!(body, br#"{"Name":"Emma"}"#);
//! # Ok::<(), Refusal>(())
//! ```
#![warn(missing_docs)]
mod findings;
mod refusal;

pub use findings::{Finding, Findings, Kind};
pub use refusal::Refusal;
use std::ptr;

#[repr(C)]
#[derive(Clone, Copy, Debug)]
struct Handle(*mut u8);

extern "C" {
    fn smithy_transcode_accept(text: *const u8, text_len: usize, place: *mut Handle) -> u8;
    fn smithy_transcode_free(table: Handle);
    fn smithy_transcode_body(
        table: Handle,
        place: *mut Handle,
        root: *const u8,
        root_len: usize,
        from: u32,
        to: u32,
        action: *const u8,
        action_len: usize,
        version: *const u8,
        version_len: usize,
        input: *const u8,
        input_len: usize,
        out: *mut u8,
        out_room: usize,
        body_len: *mut usize,
    ) -> u8;
    fn smithy_transcode_prepare(
        table: Handle,
        place: *mut Handle,
        root: *const u8,
        root_len: usize,
        from: u32,
        to: u32,
        action: *const u8,
        action_len: usize,
        version: *const u8,
        version_len: usize,
        task: *mut usize,
    ) -> u8;
    fn smithy_transcode_task(
        table: Handle,
        place: *mut Handle,
        task: usize,
        input: *const u8,
        input_len: usize,
        out: *mut u8,
        out_room: usize,
        body_len: *mut usize,
    ) -> u8;
    fn smithy_transcode_bodies(
        table: Handle,
        place: *mut Handle,
        root: *const u8,
        root_len: usize,
        from: u32,
        to: u32,
        action: *const u8,
        action_len: usize,
        version: *const u8,
        version_len: usize,
        ends: *const usize,
        ends_len: usize,
        input: *const u8,
        input_len: usize,
        out: *mut u8,
        out_room: usize,
        out_ends: *mut usize,
        out_ends_len: usize,
        statuses: *mut u8,
        statuses_len: usize,
        done: *mut usize,
    ) -> u8;
    fn smithy_transcode_compare(
        table: Handle,
        place: *mut Handle,
        root: *const u8,
        root_len: usize,
        first_wire: u32,
        first: *const u8,
        first_len: usize,
        second_wire: u32,
        second: *const u8,
        second_len: usize,
        out: *mut u8,
        out_room: usize,
        path_len: *mut usize,
    ) -> u8;
    fn smithy_transcode_findings(
        table: Handle,
        place: *mut Handle,
        root: *const u8,
        root_len: usize,
        from: u32,
        input: *const u8,
        input_len: usize,
        lens: *mut usize,
        lens_room: usize,
        kinds: *mut u8,
        kinds_room: usize,
        out: *mut u8,
        out_room: usize,
        count: *mut usize,
        len: *mut usize,
    ) -> u8;
    fn smithy_transcode_form(
        table: Handle,
        place: *mut Handle,
        root: *const u8,
        root_len: usize,
        to: u32,
        action: *const u8,
        action_len: usize,
        version: *const u8,
        version_len: usize,
        input: *const u8,
        input_len: usize,
        out: *mut u8,
        out_room: usize,
        told: *mut FormTold,
    ) -> u8;
}

#[repr(C)]
#[derive(Default)]
struct FormTold {
    action_len: usize,
    version_len: usize,
    body_len: usize,
    pair: u64,
}

/// A wire that bodies are read from.
#[derive(Clone, Copy, Debug, PartialEq, Eq, Hash)]
pub enum Source {
    /// JSON under the names of members.
    Json = 0,
    /// JSON under the JSON names of members, where they have one.
    JsonName = 1,
    /// CBOR (RFC 8949).
    Cbor = 2,
    /// JSON whose integers may have a fraction or an exponent, as `1.0`.
    JsonIntegral = 5,
    /// The same under the JSON names of members, where they have one.
    JsonNameIntegral = 6,
}

/// A wire that bodies are written to.
#[derive(Clone, Copy, Debug, PartialEq, Eq, Hash)]
pub enum Target<'a> {
    /// JSON under the names of members.
    Json,
    /// JSON under the JSON names of members, where they have one.
    JsonName,
    /// CBOR (RFC 8949).
    Cbor,
    /// CBOR whose lists and maps have their lengths.
    CborDefinite,
    /// A form of AWS Query.
    Query {
        /// The value of the form's pair `Action`.
        action: &'a str,
        /// The value of the form's pair `Version`.
        version: &'a str,
    },
}

impl<'a> Target<'a> {
    // The number, the action and the version.
    fn numbered(self) -> (u32, &'a str, &'a str) {
        match self {
            Target::Json => (0, "", ""),
            Target::JsonName => (1, "", ""),
            Target::Cbor => (2, "", ""),
            Target::Query { action, version } => (3, action, version),
            Target::CborDefinite => (4, "", ""),
        }
    }
}

/// A form of AWS Query that was read.
#[derive(Clone, Debug, PartialEq, Eq)]
pub struct Form {
    /// The text of its pair `Action`.
    pub action: String,
    /// The text of its pair `Version`.
    pub version: String,
    /// The canonical body of its value in the wanted wire.
    pub body: Vec<u8>,
}

// The answers of a call whose room is too short, of one over bodies that differ, and of one that found something.
const NO_ROOM: u8 = 24;
const DIFFERS: u8 = 40;
const FOUND: u8 = 60;

// The text that the library wrote. Paths, actions and versions are UTF-8, so nothing of it is replaced.
fn text_of(bytes: Vec<u8>) -> String {
    match String::from_utf8(bytes) {
        Ok(text) => text,
        Err(fault) => String::from_utf8_lossy(fault.as_bytes()).into_owned(),
    }
}

// What many bodies are given, and what they come to.
#[derive(Default)]
struct Batch {
    ends: Vec<usize>,
    input: Vec<u8>,
    out: Vec<u8>,
    out_ends: Vec<usize>,
    statuses: Vec<u8>,
}

impl Batch {
    // At most so many bodies go to one call.
    const MOST: usize = 512;

    fn fill(&mut self, bodies: &[&[u8]]) {
        self.ends.clear();
        self.input.clear();
        for body in bodies.iter().take(Batch::MOST) {
            self.input.extend_from_slice(body);
            self.ends.push(self.input.len());
        }
        self.out_ends.resize(self.ends.len(), 0);
        self.statuses.resize(self.ends.len(), 0);
        if self.out.len() < self.input.len() {
            self.out.resize(self.input.len(), 0);
        }
    }
}

/// A root of a table and two wires, which were looked up once. It is of the table that prepared it.
#[derive(Clone, Copy, Debug)]
pub struct Task {
    table: usize,
    number: usize,
}

/// An accepted table of shapes.
#[derive(Debug)]
pub struct Table(Handle);

// SAFETY: a table owns its memory, which the allocator of the C library hands out and takes back on any thread.
unsafe impl Send for Table {}

impl Table {
    /// Accepts the table that a text is.
    pub fn accept(text: &[u8]) -> Result<Table, Refusal> {
        let mut table = Handle(ptr::null_mut());
        // SAFETY: the slice is memory that may be read, and `table` is room for a table.
        match unsafe { smithy_transcode_accept(text.as_ptr(), text.len(), &mut table) } {
            0 => Ok(Table(table)),
            status => Err(Refusal::of_status(status)),
        }
    }

    /// Puts into `out`, in place of what it has, the canonical body in the wire `to` of the value of the root that `input` spells in the
    /// wire `from`. Where there is none, `out` is empty.
    pub fn transcode(
        &mut self,
        root: &str,
        from: Source,
        input: &[u8],
        to: Target<'_>,
        out: &mut Vec<u8>,
    ) -> Result<(), Refusal> {
        let (to, action, version) = to.numbered();
        // The library is proved over memory that holds bytes, so room that is added is filled.
        let room = input.len().max(64);
        if out.len() < room {
            out.resize(room, 0);
        }
        loop {
            let mut body_len = 0;
            // SAFETY: each slice is memory that may be read, `out` is borrowed alone, and `&mut self` makes this the table's one call.
            let status = unsafe {
                smithy_transcode_body(
                    self.0,
                    &mut self.0,
                    root.as_ptr(),
                    root.len(),
                    from as u32,
                    to,
                    action.as_ptr(),
                    action.len(),
                    version.as_ptr(),
                    version.len(),
                    input.as_ptr(),
                    input.len(),
                    out.as_mut_ptr(),
                    out.len(),
                    &mut body_len,
                )
            };
            match status {
                0 => {
                    out.truncate(body_len);
                    return Ok(());
                }
                NO_ROOM => out.resize(body_len, 0),
                status => {
                    out.clear();
                    return Err(Refusal::of_status(status));
                }
            }
        }
    }

    /// Prepares a task: looks up its root and its wires, which [`Table::run`] then doesn't do for each body. The table keeps each task that
    /// it prepares.
    ///
    /// ```
    /// use smithy_transcode::{Refusal, Source, Table, Target};
    ///
    /// let mut table = Table::accept(b"structure S\nmember a integer\n")?;
    /// let to_json = table.prepare("S", Source::Json, Target::Json)?;
    /// let mut body = Vec::new();
    /// table.run(&to_json, br#"{"a" : 7}"#, &mut body)?;
    /// assert_eq!(body, br#"{"a":7}"#);
    /// # Ok::<(), Refusal>(())
    /// ```
    pub fn prepare(&mut self, root: &str, from: Source, to: Target<'_>) -> Result<Task, Refusal> {
        let (to, action, version) = to.numbered();
        let mut number = 0;
        // SAFETY: each slice is memory that may be read, and `&mut self` makes this the table's one call.
        let status = unsafe {
            smithy_transcode_prepare(
                self.0,
                &mut self.0,
                root.as_ptr(),
                root.len(),
                from as u32,
                to,
                action.as_ptr(),
                action.len(),
                version.as_ptr(),
                version.len(),
                &mut number,
            )
        };
        match status {
            0 => Ok(Task {
                table: self.0 .0 as usize,
                number,
            }),
            status => Err(Refusal::of_status(status)),
        }
    }

    /// Transcodes a body as [`Table::transcode`] does, by a task that this table prepared.
    pub fn run(&mut self, task: &Task, input: &[u8], out: &mut Vec<u8>) -> Result<(), Refusal> {
        if task.table != self.0 .0 as usize {
            out.clear();
            return Err(Refusal::OtherTable);
        }
        let room = input.len().max(64);
        if out.len() < room {
            out.resize(room, 0);
        }
        loop {
            let mut body_len = 0;
            // SAFETY: the input is memory that may be read, `out` is borrowed alone, and `&mut self` makes this the table's one call.
            let status = unsafe {
                smithy_transcode_task(
                    self.0,
                    &mut self.0,
                    task.number,
                    input.as_ptr(),
                    input.len(),
                    out.as_mut_ptr(),
                    out.len(),
                    &mut body_len,
                )
            };
            match status {
                0 => {
                    out.truncate(body_len);
                    return Ok(());
                }
                NO_ROOM => out.resize(body_len, 0),
                status => {
                    out.clear();
                    return Err(Refusal::of_status(status));
                }
            }
        }
    }

    /// Transcodes bodies of one root, and hands on what each becomes, in their order: its body, or why there is none. An error says why
    /// there is nothing to transcode, or no memory for it.
    pub fn transcode_all<F: FnMut(Result<&[u8], Refusal>)>(
        &mut self,
        root: &str,
        from: Source,
        bodies: &[&[u8]],
        to: Target<'_>,
        mut each: F,
    ) -> Result<(), Refusal> {
        let mut batch = Batch::default();
        let mut left = bodies;
        while !left.is_empty() {
            batch.fill(left);
            let done = self.transcode_batch(root, from, to, &mut batch)?;
            let mut at = 0;
            for (&end, &status) in batch.out_ends.iter().zip(&batch.statuses).take(done) {
                each(if status == 0 {
                    Ok(&batch.out[at..end])
                } else {
                    Err(Refusal::of_status(status))
                });
                at = end;
            }
            left = &left[done..];
        }
        Ok(())
    }

    /// The text of the first path at which the values of two bodies of the root differ, or `None` where both spell one value.
    ///
    /// ```
    /// use smithy_transcode::{Refusal, Source, Table};
    ///
    /// let mut table = Table::accept(b"structure S\nmember a integer\nmember l L\nlist L string\n")?;
    /// let first = br#"{"l":["x"], "a" : 7}"#;
    /// assert_eq!(table.compare("S", Source::Json, first, Source::Cbor, b"\xa2\x61a\x07\x61l\x81\x61x")?, None);
    /// let path = table.compare("S", Source::Json, first, Source::Json, br#"{"a":7,"l":["x","y"]}"#)?;
    /// assert_eq!(path.as_deref(), Some("$.l[1]"));
    /// # Ok::<(), Refusal>(())
    /// ```
    pub fn compare(
        &mut self,
        root: &str,
        first_wire: Source,
        first: &[u8],
        second_wire: Source,
        second: &[u8],
    ) -> Result<Option<String>, Refusal> {
        let mut path = vec![0; 256];
        loop {
            let mut path_len = 0;
            // SAFETY: each slice is memory that may be read, `path` is borrowed alone, and `&mut self` makes this the table's one call.
            let status = unsafe {
                smithy_transcode_compare(
                    self.0,
                    &mut self.0,
                    root.as_ptr(),
                    root.len(),
                    first_wire as u32,
                    first.as_ptr(),
                    first.len(),
                    second_wire as u32,
                    second.as_ptr(),
                    second.len(),
                    path.as_mut_ptr(),
                    path.len(),
                    &mut path_len,
                )
            };
            match status {
                0 => return Ok(None),
                DIFFERS => {
                    path.truncate(path_len);
                    return Ok(Some(text_of(path)));
                }
                NO_ROOM => path.resize(path_len, 0),
                status => return Err(Refusal::of_status(status)),
            }
        }
    }

    /// All that is wrong with a body of the root, and each entry that the table doesn't know, in the order of the body. Nothing is found
    /// exactly where the body spells a value and has no unknown entry.
    ///
    /// ```
    /// use smithy_transcode::{Finding, Kind, Refusal, Source, Table};
    ///
    /// let mut table = Table::accept(b"structure S\nmember a integer\nmember l L\nlist L string\n")?;
    /// let findings = table.findings("S", Source::Json, br#"{"z":1, "l":[null]}"#)?;
    /// let first = findings.iter().next();
    /// assert_eq!(first, Some(Finding { path: "${\"z\"}", kind: Kind::Unknown }));
    /// for finding in findings.iter() {
    ///     println!("{} {}", finding.path, finding.kind);
    /// }
    /// # Ok::<(), Refusal>(())
    /// ```
    pub fn findings(
        &mut self,
        root: &str,
        source: Source,
        body: &[u8],
    ) -> Result<Findings, Refusal> {
        let (mut lens, mut kinds, mut texts) = (vec![0; 16], vec![0; 16], vec![0; 1024]);
        loop {
            let (mut count, mut len) = (0, 0);
            // SAFETY: each slice is memory that may be read, each vector is borrowed alone, and `&mut self` makes this the table's one call.
            let status = unsafe {
                smithy_transcode_findings(
                    self.0,
                    &mut self.0,
                    root.as_ptr(),
                    root.len(),
                    source as u32,
                    body.as_ptr(),
                    body.len(),
                    lens.as_mut_ptr(),
                    lens.len(),
                    kinds.as_mut_ptr(),
                    kinds.len(),
                    texts.as_mut_ptr(),
                    texts.len(),
                    &mut count,
                    &mut len,
                )
            };
            match status {
                0 | FOUND => {
                    lens.truncate(count);
                    kinds.truncate(count);
                    texts.truncate(len);
                    let texts = text_of(texts);
                    return Ok(Findings { texts, lens, kinds });
                }
                NO_ROOM => {
                    lens.resize(count, 0);
                    kinds.resize(count, 0);
                    texts.resize(len, 0);
                }
                status => return Err(Refusal::of_status(status)),
            }
        }
    }

    /// The action, the version and the value of a form of AWS Query, whose body is written in the wire `to`.
    ///
    /// ```
    /// use smithy_transcode::{Refusal, Table, Target};
    ///
    /// let mut table = Table::accept(b"structure S\nmember a integer\n")?;
    /// let form = table.form("S", b"Action=Do&Version=1&a=7", Target::Json)?;
    /// assert_eq!((form.action.as_str(), form.version.as_str()), ("Do", "1"));
    /// assert_eq!(form.body, br#"{"a":7}"#);
    /// # Ok::<(), Refusal>(())
    /// ```
    pub fn form(&mut self, root: &str, input: &[u8], to: Target<'_>) -> Result<Form, Refusal> {
        let (to, action, version) = to.numbered();
        let mut out = vec![0; input.len() + 256];
        loop {
            let mut told = FormTold::default();
            // SAFETY: each slice is memory that may be read, `out` is borrowed alone, and `&mut self` makes this the table's one call.
            let status = unsafe {
                smithy_transcode_form(
                    self.0,
                    &mut self.0,
                    root.as_ptr(),
                    root.len(),
                    to,
                    action.as_ptr(),
                    action.len(),
                    version.as_ptr(),
                    version.len(),
                    input.as_ptr(),
                    input.len(),
                    out.as_mut_ptr(),
                    out.len(),
                    &mut told,
                )
            };
            let len = told.action_len + told.version_len + told.body_len;
            match status {
                0 => {
                    out.truncate(len);
                    let body = out.split_off(told.action_len + told.version_len);
                    let version = out.split_off(told.action_len);
                    return Ok(Form {
                        action: text_of(out),
                        version: text_of(version),
                        body,
                    });
                }
                NO_ROOM => out.resize(len, 0),
                status => return Err(Refusal::of_form(status, told.pair)),
            }
        }
    }

    // How many of a batch, one at least, were done.
    fn transcode_batch(
        &mut self,
        root: &str,
        from: Source,
        to: Target<'_>,
        batch: &mut Batch,
    ) -> Result<usize, Refusal> {
        let (to, action, version) = to.numbered();
        loop {
            let mut done = 0;
            // SAFETY: each slice is memory that may be read, those of `batch` that are written are borrowed alone, and `&mut self` makes
            // this the table's one call.
            let status = unsafe {
                smithy_transcode_bodies(
                    self.0,
                    &mut self.0,
                    root.as_ptr(),
                    root.len(),
                    from as u32,
                    to,
                    action.as_ptr(),
                    action.len(),
                    version.as_ptr(),
                    version.len(),
                    batch.ends.as_ptr(),
                    batch.ends.len(),
                    batch.input.as_ptr(),
                    batch.input.len(),
                    batch.out.as_mut_ptr(),
                    batch.out.len(),
                    batch.out_ends.as_mut_ptr(),
                    batch.out_ends.len(),
                    batch.statuses.as_mut_ptr(),
                    batch.statuses.len(),
                    &mut done,
                )
            };
            match status {
                0 => return Ok(done),
                NO_ROOM if done > 0 => return Ok(done),
                NO_ROOM => batch.out.resize(2 * batch.out.len() + 64, 0),
                status => return Err(Refusal::of_status(status)),
            }
        }
    }
}

impl Drop for Table {
    fn drop(&mut self) {
        // SAFETY: the table was accepted, and no call comes after this one.
        unsafe { smithy_transcode_free(self.0) }
    }
}
