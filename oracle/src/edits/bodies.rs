// Many edited copies of one text, kept as one: each function that some copy changes gets a `match` on the number of
// the mistake that is switched on, with the changed bodies beside its own. So a hundred copies compile as fast as two.
// Rests on the text's shape: a function begins a line, and braces in its strings are balanced.

/// A text cut at its functions: what stands before each, its head, its body with the braces.
struct Cut<'a> {
    functions: Vec<(&'a str, &'a str, &'a str)>,
    rest: &'a str,
}

fn is_function_line(line: &str) -> bool {
    let line = line.trim_start();
    let line = line.strip_prefix("pub ").unwrap_or(line);
    let line = line.strip_prefix("const ").unwrap_or(line);
    line.starts_with("fn ")
}

/// Where the body of the function at `start` begins, or none for a declaration.
fn body_start(text: &str, start: usize) -> Option<usize> {
    let mut brackets = 0;
    for (at, byte) in text.bytes().enumerate().skip(start) {
        match byte {
            b'(' | b'[' => brackets += 1,
            b')' | b']' => brackets -= 1,
            b'{' => return Some(at),
            b';' if brackets == 0 => return None,
            _ => {}
        }
    }
    None
}

fn body_end(text: &str, start: usize) -> usize {
    let mut braces = 0;
    for (at, byte) in text.bytes().enumerate().skip(start) {
        match byte {
            b'{' => braces += 1,
            b'}' => braces -= 1,
            _ => {}
        }
        if braces == 0 {
            return at + 1;
        }
    }
    panic!("a function's braces are not balanced");
}

fn cut(text: &str) -> Cut<'_> {
    let mut functions = Vec::new();
    let (mut done, mut line_start) = (0, 0);
    while line_start < text.len() {
        let line_end = text[line_start..].find('\n').map_or(text.len(), |length| line_start + length + 1);
        let body = is_function_line(&text[line_start..line_end])
            .then(|| body_start(text, line_start))
            .flatten();
        let Some(start) = body else {
            line_start = line_end;
            continue;
        };
        let end = body_end(text, start);
        functions.push((&text[done..line_start], &text[line_start..start], &text[start..end]));
        (done, line_start) = (end, end);
    }
    Cut { functions, rest: &text[done..] }
}

/// The base text with every copy's bodies. `switched` is the expression that tells the mistake's number.
pub fn merge(base: &str, copies: &[(usize, String)], switched: &str) -> String {
    let base = cut(base);
    let mut arms = vec![String::new(); base.functions.len()];
    for (number, copy) in copies {
        let copy = cut(copy);
        assert!(copy.functions.len() == base.functions.len() && copy.rest == base.rest);
        let mut changed = 0;
        for (place, (own, other)) in base.functions.iter().zip(&copy.functions).enumerate() {
            assert!(own.0 == other.0 && own.1 == other.1, "planted mistake {number} edits more than bodies");
            if own.2 != other.2 {
                arms[place] += &format!("{number} => {}\n", other.2);
                changed += 1;
            }
        }
        assert!(changed > 0, "planted mistake {number} changes nothing");
    }
    let mut text = String::new();
    for ((before, head, body), arms) in base.functions.iter().zip(arms) {
        text += before;
        text += head;
        if arms.is_empty() {
            text += body;
        } else {
            text += &format!("{{\nmatch {switched} {{\n{arms}_ => {body}\n}}\n}}");
        }
    }
    text + base.rest
}
