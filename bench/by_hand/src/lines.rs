//! The lines that are printed: the number of the document's line, the normalized path, the value as JSON; or
//! the value alone; or the document's line.

use serde_json::Value;

/// What was printed and not written yet, and where the walk stands.
pub struct Lines {
    pub bytes: Vec<u8>,
    pub number: u64,
    path: Vec<u8>,
}

impl Lines {
    /// No line, at the root of the document in front of the one whose number is one more.
    pub fn behind(number: u64, room: usize) -> Lines {
        Lines {
            bytes: Vec::with_capacity(room),
            number,
            path: b"$".to_vec(),
        }
    }

    /// Prints the node at the path.
    pub fn node(&mut self, value: &Value) {
        decimal(&mut self.bytes, self.number);
        self.bytes.push(b'\t');
        self.bytes.extend_from_slice(&self.path);
        self.bytes.push(b'\t');
        self.value(value);
    }

    /// Prints the value alone.
    pub fn value(&mut self, value: &Value) {
        match value {
            Value::Null => self.bytes.extend_from_slice(b"null"),
            Value::Bool(true) => self.bytes.extend_from_slice(b"true"),
            Value::Bool(false) => self.bytes.extend_from_slice(b"false"),
            other => serde_json::to_writer(&mut self.bytes, other).expect("a Vec takes all"),
        }
        self.bytes.push(b'\n');
    }

    /// Prints a line of the input.
    pub fn copy(&mut self, line: &[u8]) {
        self.bytes.extend_from_slice(line);
        self.bytes.push(b'\n');
    }

    /// Goes on at the member of this name.
    pub fn at_name(&mut self, name: &str, go: impl FnOnce(&mut Lines)) {
        let length = self.path.len();
        self.path.extend_from_slice(b"['");
        if name
            .bytes()
            .any(|byte| byte < 0x20 || byte == b'\'' || byte == b'\\')
        {
            name.bytes().for_each(|byte| escape(&mut self.path, byte));
        } else {
            self.path.extend_from_slice(name.as_bytes());
        }
        self.path.extend_from_slice(b"']");
        go(self);
        self.path.truncate(length);
    }

    /// Goes on at the item of this index.
    pub fn at_index(&mut self, index: usize, go: impl FnOnce(&mut Lines)) {
        let length = self.path.len();
        self.path.push(b'[');
        decimal(&mut self.path, index as u64);
        self.path.push(b']');
        go(self);
        self.path.truncate(length);
    }
}

fn decimal(to: &mut Vec<u8>, mut number: u64) {
    let mut digits = [0u8; 20];
    let mut at = digits.len();
    loop {
        at -= 1;
        digits[at] = b'0' + (number % 10) as u8;
        number /= 10;
        if number == 0 {
            break;
        }
    }
    to.extend_from_slice(&digits[at..]);
}

fn escape(path: &mut Vec<u8>, byte: u8) {
    match byte {
        b'\'' => path.extend_from_slice(b"\\'"),
        b'\\' => path.extend_from_slice(b"\\\\"),
        0x08 => path.extend_from_slice(b"\\b"),
        b'\t' => path.extend_from_slice(b"\\t"),
        b'\n' => path.extend_from_slice(b"\\n"),
        0x0c => path.extend_from_slice(b"\\f"),
        b'\r' => path.extend_from_slice(b"\\r"),
        0..=0x1f => path.extend_from_slice(format!("\\u{:04x}", byte).as_bytes()),
        _ => path.push(byte),
    }
}
