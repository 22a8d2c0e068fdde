//! One call made on an implementation, and the differences between two such.

use std::fmt::Write;
use std::hint::black_box;

use reference::{Implementation, Reply, TableBytes, Tables, TABLES};

use crate::call::{hex, Call, Ending, Lent};
use crate::guarded::{Guarded, MARGIN};

/// What is lent behind the tables.
const REQUEST: [&str; 4] = ["block", "parameters", "log", "answer"];

/// How a call ended: what it handed back and every lent byte.
pub struct Made {
    pub ending: Ending,
    tables: [Guarded; TABLES.len()],
    request: [Guarded; REQUEST.len()],
}

impl Made {
    /// The reply of a command or an event; a replay has none, which is all zeros here.
    pub fn reply(&self) -> Reply {
        match self.ending {
            Ending::Replied(reply) => reply,
            Ending::Replayed(_) => Reply::default(),
        }
    }

    pub fn head(&self) -> &[u8] {
        self.tables[0].content()
    }

    pub fn elements(&self) -> &[u8] {
        self.tables[1].content()
    }

    pub fn search(&self) -> &[u8] {
        self.tables[6].content()
    }

    /// The tables as the call leaves them: head, elements and search; the others are only read.
    pub fn carry_on(&self, tables: &mut TableBytes) {
        tables.head = self.head().to_vec();
        tables.elements = self.elements().to_vec();
        tables.search = self.search().to_vec();
    }

    pub fn answer(&self) -> &[u8] {
        self.request[3].content()
    }

    fn slices(&self) -> impl Iterator<Item = &Guarded> {
        self.tables.iter().chain(&self.request)
    }
}

pub fn make(
    implementation: &dyn Implementation,
    before: &TableBytes,
    call: &Call,
    margin: [u8; MARGIN],
) -> Made {
    let Lent {
        block,
        parameters,
        log,
    } = call.lent();
    let mut tables = before
        .clone()
        .each()
        .map(|content| Guarded::new(content, margin));
    let mut request =
        [block, parameters, log, call.answer()].map(|content| Guarded::new(content, margin));
    let [block, parameters, log, answer] = &mut request;
    let lent = Lent {
        block: block.content(),
        parameters: parameters.content(),
        log: log.content(),
    };
    let on = Tables::of(tables.each_mut().map(Guarded::content_mut));
    let ending = call.make(implementation, on, lent, answer.content_mut());
    // Foreign code may have written where only reading was allowed; the bytes are looked at afresh.
    black_box((&mut tables, &mut request));
    Made {
        ending,
        tables,
        request,
    }
}

/// One line for each field or slice that differs; none where the two agree.
pub fn differences(expected: &Made, found: &Made) -> Vec<String> {
    let mut lines = Vec::new();
    let fields = expected.ending.fields().into_iter();
    for ((name, expected), (_, found)) in fields.zip(found.ending.fields()) {
        if expected != found {
            lines.push(format!("{name}: expected {expected}, found {found}"));
        }
    }
    let names = TABLES.into_iter().chain(REQUEST);
    for (name, (expected, found)) in names.zip(expected.slices().zip(found.slices())) {
        lines.extend(slice_difference(name, expected, found));
        if !found.margins_kept() {
            lines.push(format!("{name}: bytes beside the slice were written"));
        }
    }
    lines
}

fn slice_difference(name: &str, expected: &Guarded, found: &Guarded) -> Option<String> {
    let pairs = expected.content().iter().zip(found.content());
    let different: Vec<String> = pairs
        .enumerate()
        .filter(|(_, (expected, found))| expected != found)
        .map(|(at, (expected, found))| format!("[{at}] {expected:02x}, found {found:02x}"))
        .collect();
    if different.is_empty() {
        return None;
    }
    let shown = different[..different.len().min(8)].join("; ");
    Some(format!(
        "{name}: {} bytes differ: expected {shown}",
        different.len()
    ))
}

/// The tables before the call, the call, and both outcomes.
pub fn describe(before: &TableBytes, call: &Call, expected: &Made, found: &Made) -> String {
    let mut text = call.to_string();
    for (at, range) in before.head.chunks(4).take(4).enumerate() {
        let name = ["transport", "storage", "import/export", "drive"][at];
        let _ = writeln!(text, "  range {name}: {}", hex(range));
    }
    let rest = before.head.get(16..).unwrap_or_default();
    let _ = writeln!(
        text,
        "  head ({}) from byte 16: {}",
        before.head.len(),
        hex(rest)
    );
    let _ = writeln!(text, "  elements ({} bytes):", before.elements.len());
    for (place, element) in before.elements.chunks(8).enumerate() {
        if element.iter().any(|&byte| byte != 0) {
            let _ = writeln!(text, "    place {place}: {}", hex(element));
        }
    }
    let tags = before.tags.len();
    let _ = writeln!(text, "  tags ({tags} bytes): V is {}", tags / 36);
    for (name, table) in TABLES.into_iter().zip(before.clone().each()).skip(3) {
        let _ = writeln!(text, "  {name} ({}): {}", table.len(), hex(table));
    }
    let _ = writeln!(text, "  expected {:?}", expected.ending);
    let _ = writeln!(text, "  found    {:?}", found.ending);
    for line in differences(expected, found) {
        let _ = writeln!(text, "  differs: {line}");
    }
    text
}
