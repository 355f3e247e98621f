//! The rules: what becomes of a line.

use crate::names::Names;
use crate::tokens::{argument, argument_end, code, Token};

/// Bytes of a line that become others, and the names that this needs.
#[derive(Debug, PartialEq, Eq)]
pub(crate) struct Change {
    pub(crate) start: usize,
    pub(crate) end: usize,
    pub(crate) new: String,
    pub(crate) needs: Vec<String>,
}

impl Change {
    fn new(start: usize, end: usize, new: impl Into<String>) -> Change {
        Change {
            start,
            end,
            new: new.into(),
            needs: Vec::new(),
        }
    }

    fn needing(mut self, name: &str) -> Change {
        self.needs.push(name.to_string());
        self
    }
}

/// All changes of a line.
pub(crate) fn changes(line: &str, names: &Names) -> Vec<Change> {
    let tokens = code(line);
    let body = right_side(&tokens);
    let mut changes = Vec::new();
    for (place, token) in tokens.iter().enumerate() {
        let replaced = |new: &str| Change::new(token.start, token.end, new);
        if is_numeral(token.text) && !is_structural(&tokens, place) {
            let neighbours = neighbours(token.text, is_bound(&tokens, place));
            changes.extend(neighbours.iter().map(|new| replaced(new)));
        }
        if let Some(other) = opposite(token.text) {
            changes.push(replaced(other).needing(other));
        }
        if place < body {
            continue;
        }
        if let Some(next) = names.next.get(token.text) {
            changes.push(replaced(next).needing(next));
        }
        match token.text {
            "eqb" if !is_denied(&tokens, place) => {
                changes.extend(argument_end(&tokens, place, 2).map(|end| {
                    let test = &line[token.start..end];
                    Change::new(token.start, end, format!("not ({test})")).needing("not")
                }))
            }
            "not" => changes.extend(
                tokens
                    .get(place + 1)
                    .map(|next| Change::new(token.start, next.start, "")),
            ),
            "refuse" => changes.extend(place_of_refusal(&tokens, place, 2)),
            "reject" | "the" => changes.extend(place_of_refusal(&tokens, place, 3)),
            _ => {}
        }
    }
    changes
}

/// Where a line's right side begins: after `=`, or else after `:`, outside brackets.
fn right_side(tokens: &[Token]) -> usize {
    let after = |sign: &str| {
        let mut depth = 0;
        tokens.iter().position(|token| {
            match token.text {
                "(" | "{" => depth += 1,
                ")" | "}" => depth -= 1,
                _ => {}
            }
            depth == 0 && token.text == sign
        })
    };
    after("=").or(after(":")).map_or(0, |place| place + 1)
}

fn is_numeral(text: &str) -> bool {
    text.starts_with(|letter: char| letter.is_ascii_digit()) && value(text).is_some()
}

fn value(text: &str) -> Option<u64> {
    let digits = text.replace('_', "");
    match digits.strip_prefix("0x") {
        Some(hex) => u64::from_str_radix(hex, 16).ok(),
        None => digits.parse().ok(),
    }
}

/// A numeral one more, and perhaps one less, written as it is.
fn neighbours(text: &str, with_less: bool) -> Vec<String> {
    let Some(value) = value(text) else {
        return Vec::new();
    };
    let written = |value: u64| match text.strip_prefix("0x") {
        Some(hex) => format!("0x{value:0width$X}", width = hex.len()),
        None => value.to_string(),
    };
    let less = value.checked_sub(1).filter(|_| with_less);
    [Some(value + 1), less]
        .into_iter()
        .flatten()
        .map(written)
        .collect()
}

/// Bounds and byte places: what is compared, allowed, taken, dropped or looked up, and
/// a definition that is one numeral.
fn is_bound(tokens: &[Token], place: usize) -> bool {
    let at = |place: Option<usize>| {
        place
            .and_then(|place| tokens.get(place))
            .map_or("", |token| token.text)
    };
    let is_compared = [at(place.checked_sub(1)), at(Some(place + 1))]
        .iter()
        .any(|text| matches!(*text, "<" | "≤"));
    let is_argument = (0..place).any(|start| {
        let first = argument(tokens, start + 1);
        let is_first = start + 1 == place;
        let is_second = first == Some(place);
        match tokens[start].text {
            "leb" | "ltb" => is_first || is_second,
            "take" | "drop" | "up_to" | "digits_up_to" | "all_below" => is_first,
            "get_or" => is_second,
            _ => false,
        }
    });
    let is_all = at(place.checked_sub(1)) == "=" && place + 1 == tokens.len();
    is_compared || is_argument || is_all
}

/// Universe levels, and the 0 that `get_or` gives past a list's end.
fn is_structural(tokens: &[Token], place: usize) -> bool {
    let before = |distance: usize| {
        place
            .checked_sub(distance)
            .map_or("", |earlier| tokens[earlier].text)
    };
    let is_level = before(1) == "Type" || before(1) == "{";
    let is_default = tokens[place].text == "0"
        && (0..place).any(|start| {
            tokens[start].text == "get_or"
                && argument(tokens, start + 1)
                    .and_then(|next| argument(tokens, next))
                    .is_some_and(|next| next == place)
        });
    is_level || is_default
}

fn opposite(text: &str) -> Option<&'static str> {
    Some(match text {
        "leb" => "ltb",
        "ltb" => "leb",
        "<" => "≤",
        "≤" => "<",
        "≡" => "≢",
        "≢" => "≡",
        "&&" => "||",
        "||" => "&&",
        _ => return None,
    })
}

/// Whether `not (` stands before a test, which is a change of its own.
fn is_denied(tokens: &[Token], place: usize) -> bool {
    place >= 2 && tokens[place - 2].text == "not" && tokens[place - 1].text == "("
}

/// The place, which is the last argument of a refusal, as 0.
fn place_of_refusal(tokens: &[Token], place: usize, count: usize) -> Option<Change> {
    let last = (1..count).try_fold(place + 1, |next, _| argument(tokens, next))?;
    let after = argument(tokens, last)?;
    (!is_numeral(tokens[last].text))
        .then(|| Change::new(tokens[last].start, tokens[after - 1].end, "0"))
}

#[cfg(test)]
mod tests {
    use super::*;
    use crate::Source;

    fn changed(line: &str) -> Vec<String> {
        let source = Source {
            name: "Signs".to_string(),
            lines: ["pub data Sign : Type 0 where", "  plus minus : Sign"]
                .map(str::to_string)
                .to_vec(),
        };
        let names = Names::of(&[source]);
        changes(line, &names)
            .iter()
            .map(|change| {
                let mut text = line.to_string();
                text.replace_range(change.start..change.end, &change.new);
                text
            })
            .collect()
    }

    #[test]
    fn every_rule_changes_one_token() {
        let rows: [(&str, &[&str]); 16] = [
            ("use Rattle.std.specs.Prelude.{leb}", &[]),
            ("infixl 20 ◌>>=◌", &[]),
            ("pub data Sign : Type 0 where -- 7 < 8", &[]),
            ("  plus minus : Sign", &[]),
            ("reject : Result (Unit {0})", &[]),
            (
                "id_of t = get_or (drop 9 t) 2 0",
                &[
                    "id_of t = get_or (drop 10 t) 2 0",
                    "id_of t = get_or (drop 8 t) 2 0",
                    "id_of t = get_or (drop 9 t) 3 0",
                    "id_of t = get_or (drop 9 t) 1 0",
                ],
            ),
            ("f = e.0 ∷ 0x7F ∷ []", &["f = e.0 ∷ 0x80 ∷ []"]),
            ("most = 9", &["most = 10", "most = 8"]),
            (
                "  case : F ≤ 9 → Has 1",
                &[
                    "  case : F < 9 → Has 1",
                    "  case : F ≤ 10 → Has 1",
                    "  case : F ≤ 8 → Has 1",
                    "  case : F ≤ 9 → Has 2",
                ],
            ),
            ("f minus = plus", &["f minus = minus"]),
            (
                "  case : a < b → Has plus a",
                &[
                    "  case : a ≤ b → Has plus a",
                    "  case : a < b → Has minus a",
                ],
            ),
            ("f a = a ≡ b", &["f a = a ≢ b"]),
            (
                "f a = if eqb (g a) b then c else d",
                &["f a = if not (eqb (g a) b) then c else d"],
            ),
            (
                "  reject (not (ltb a b)) n p",
                &[
                    "  reject (not (ltb a b)) n 0",
                    "  reject ((ltb a b)) n p",
                    "  reject (not (leb a b)) n p",
                ],
            ),
            (
                "f (refuse n p) = refuse n e.at",
                &["f (refuse n p) = refuse n 0"],
            ),
            ("f a = a && true", &["f a = a || true", "f a = a && false"]),
        ];
        for (line, expected) in rows {
            assert_eq!(changed(line), expected, "{line}");
        }
    }
}
