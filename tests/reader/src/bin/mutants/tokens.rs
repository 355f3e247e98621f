//! The words of a line.

#[derive(Clone, Copy, Debug, PartialEq, Eq)]
pub(crate) struct Token<'t> {
    pub(crate) start: usize,
    pub(crate) end: usize,
    pub(crate) text: &'t str,
}

/// The tokens of a line: brackets, commas and semicolons, and what stands between them.
pub(crate) fn tokens(line: &str) -> Vec<Token<'_>> {
    let mut tokens = Vec::new();
    let mut word = None;
    let token = |start: usize, end: usize| Token {
        start,
        end,
        text: &line[start..end],
    };
    for (place, letter) in line.char_indices() {
        let is_single = "(){},;".contains(letter);
        if is_single || letter.is_whitespace() {
            tokens.extend(word.take().map(|start| token(start, place)));
        } else if word.is_none() {
            word = Some(place);
        }
        if is_single {
            tokens.push(token(place, place + 1));
        }
    }
    tokens.extend(word.map(|start| token(start, line.len())));
    tokens
}

/// The tokens of a line that are code.
pub(crate) fn code(line: &str) -> Vec<Token<'_>> {
    let mut tokens = tokens(line);
    let comment = tokens.iter().position(|token| token.text.starts_with("--"));
    tokens.truncate(comment.unwrap_or(tokens.len()));
    let first = tokens.first().map_or("", |token| token.text);
    if matches!(first, "use" | "infix" | "infixl" | "infixr" | "module") {
        tokens.clear();
    }
    tokens
}

/// The token behind the argument that begins at a place: a word, or what brackets hold.
pub(crate) fn argument(tokens: &[Token], place: usize) -> Option<usize> {
    let mut depth = 0;
    for (distance, token) in tokens.get(place..)?.iter().enumerate() {
        match token.text {
            "(" | "{" => depth += 1,
            ")" | "}" if depth == 0 => return None,
            ")" | "}" => depth -= 1,
            _ => {}
        }
        if depth == 0 {
            return Some(place + distance + 1);
        }
    }
    None
}

/// Where the text of a function with so many arguments ends.
pub(crate) fn argument_end(tokens: &[Token], place: usize, count: usize) -> Option<usize> {
    let next = (0..count).try_fold(place + 1, |next, _| argument(tokens, next))?;
    Some(tokens[next - 1].end)
}
