//! What the definitions of all files name.

use std::collections::BTreeMap;

use crate::tokens::code;
use crate::Source;

/// What the definitions of all files name.
pub(crate) struct Names {
    /// The next constructor of its type, for one without arguments.
    pub(crate) next: BTreeMap<String, String>,
    /// The file of each such constructor.
    file: BTreeMap<String, String>,
}

impl Names {
    pub(crate) fn of(sources: &[Source]) -> Names {
        let mut names = Names {
            next: BTreeMap::from([
                ("true".to_string(), "false".to_string()),
                ("false".to_string(), "true".to_string()),
            ]),
            file: BTreeMap::new(),
        };
        for source in sources {
            names.add(source);
        }
        names
    }

    fn add(&mut self, source: &Source) {
        let mut constructors: BTreeMap<String, Vec<String>> = BTreeMap::new();
        let mut data = String::new();
        for line in &source.lines {
            let words: Vec<&str> = code(line)
                .iter()
                .map(|token| token.text)
                .filter(|&text| text != "pub")
                .collect();
            if let ["data", name, ..] = words[..] {
                data = name.to_string();
            }
            if let [names @ .., ":", result] = &words[..] {
                if line.starts_with(' ') && *result == data {
                    let all = constructors.entry(data.clone()).or_default();
                    all.extend(names.iter().map(|name| name.to_string()));
                }
            }
        }
        for all in constructors.values().filter(|all| all.len() > 1) {
            for (place, name) in all.iter().enumerate() {
                let next = &all[(place + 1) % all.len()];
                self.next.insert(name.clone(), next.clone());
                self.file.insert(name.clone(), source.name.clone());
            }
        }
    }

    /// The line that brings a name into a file.
    pub(crate) fn use_line(&self, name: &str, into: &str) -> Option<String> {
        let name = match name {
            "leb" | "ltb" | "not" | "true" | "false" => name.to_string(),
            "&&" | "||" | "<" | "≤" | "≡" | "≢" => format!("◌{name}◌"),
            _ => {
                let file = self.file.get(name).filter(|&file| file != into)?;
                return Some(format!("use Rattle.fdoca.specs.{file}.{{{name}}}"));
            }
        };
        Some(format!("use Rattle.std.specs.Prelude.{{{name}}}"))
    }
}
