//! A list of mutants: '@ label', the file, then '-' lines and '+' lines; lines in a row are one text.

use std::path::Path;

pub struct Mutant {
    pub label: String,
    /// which file of the copy; of a library, which processors
    pub file: String,
    changes: Vec<(String, String)>,
}

pub fn parsed(table: &str) -> Vec<Mutant> {
    let mut all: Vec<Mutant> = Vec::new();
    let mut last = ' ';
    for line in table.lines().filter(|l| !l.starts_with('#') && !l.is_empty()) {
        let sign = line.chars().next().unwrap_or(' ');
        let add = |text: &mut String| {
            if last == sign {
                text.push('\n');
            }
            text.push_str(&line[1..]);
        };
        match (sign, all.last_mut()) {
            ('@', _) => all.push(Mutant { label: line[2..].into(), file: String::new(), changes: Vec::new() }),
            ('-', Some(m)) => {
                if last != '-' {
                    m.changes.push(Default::default());
                }
                add(&mut m.changes.last_mut().expect("one").0);
            }
            ('+', Some(m)) => add(&mut m.changes.last_mut().expect("a '-' comes first").1),
            (_, Some(m)) => m.file = line.into(),
            _ => panic!("a mutant starts with '@'"),
        }
        last = sign;
    }
    all
}

impl Mutant {
    /// one that cannot be seen, and says why
    pub fn changes_nothing(&self) -> bool {
        self.label.starts_with('=')
    }

    /// The one change of bytes, \hh being a byte: both are as long, and one byte differs.
    pub fn byte(&self) -> (Vec<u8>, Vec<u8>) {
        let [(old, new)] = &self.changes[..] else { panic!("{}: one change", self.label) };
        let (old, new) = (bytes(old), bytes(new));
        let differ = old.iter().zip(&new).filter(|(a, b)| a != b).count();
        assert!(old.len() == new.len() && differ == 1, "{}: one byte", self.label);
        (old, new)
    }

    /// Makes the changes in a copy's file: each at its first place after the one before.
    pub fn apply(&self, copy: &Path) {
        let file = copy.join(&self.file);
        let mut text = std::fs::read_to_string(&file).expect("the mutant's file");
        let mut from = 0;
        for (old, new) in &self.changes {
            let at = text[from..].find(old).unwrap_or_else(|| panic!("{}: '{old}' is not in {}", self.label, self.file));
            text.replace_range(from + at..from + at + old.len(), new);
            from += at + new.len();
        }
        std::fs::write(&file, text).expect("the mutant is written");
    }
}

fn bytes(text: &str) -> Vec<u8> {
    let mut parts = text.split('\\');
    let mut all = parts.next().unwrap_or_default().as_bytes().to_vec();
    for part in parts {
        all.push(u8::from_str_radix(&part[..2], 16).expect("\\hh is a byte"));
        all.extend(part[2..].as_bytes());
    }
    all
}
