//! The `repeat` directive of the text form: a block of lines written out once
//! for each number of a range, so that large cases stay short.
//!
//! ```text
//! repeat d 0 1023
//!     holder point 0 day {d} supplier 1 from energinet received {d+10}
//! end
//! ```

/// A line without its comment, and its number in the source.
#[derive(Clone, Debug, PartialEq, Eq)]
pub struct Line {
    pub number: usize,
    pub text: String,
}

/// More lines than any case needs; a slip in a range must not fill the memory.
const MOST_LINES: usize = 1_000_000;

/// Strips comments and blank lines and writes out the repeated blocks.
pub fn expand(source: &str) -> Result<Vec<Line>, String> {
    let lines: Vec<Line> = source
        .lines()
        .enumerate()
        .map(|(index, line)| Line {
            number: index + 1,
            text: line.split('#').next().unwrap_or("").trim().to_string(),
        })
        .filter(|line| !line.text.is_empty())
        .collect();
    let mut written = Vec::new();
    expand_block(&lines, &mut Vec::new(), &mut written)?;
    Ok(written)
}

fn expand_block(
    lines: &[Line],
    numbers: &mut Vec<(String, i64)>,
    written: &mut Vec<Line>,
) -> Result<(), String> {
    let mut at = 0;
    while at < lines.len() {
        let line = &lines[at];
        let words: Vec<&str> = line.text.split_whitespace().collect();
        match words[0] {
            "repeat" => {
                let [_, name, first, last] = words[..] else {
                    return Err(wrong(line, "repeat NAME FIRST LAST"));
                };
                let first = evaluate_in_line(line, &substitute(line, first, numbers)?)?;
                let last = evaluate_in_line(line, &substitute(line, last, numbers)?)?;
                let end = matching_end(lines, at)?;
                for number in first..=last {
                    numbers.push((name.to_string(), number));
                    expand_block(&lines[at + 1..end], numbers, written)?;
                    numbers.pop();
                }
                at = end + 1;
            }
            "end" => return Err(wrong(line, "end without repeat")),
            _ => {
                if written.len() == MOST_LINES {
                    return Err(wrong(line, "too many lines"));
                }
                written.push(Line {
                    number: line.number,
                    text: substitute(line, &line.text, numbers)?,
                });
                at += 1;
            }
        }
    }
    Ok(())
}

fn matching_end(lines: &[Line], repeat_at: usize) -> Result<usize, String> {
    let mut depth = 0;
    for (at, line) in lines.iter().enumerate().skip(repeat_at) {
        match line.text.split_whitespace().next() {
            Some("repeat") => depth += 1,
            Some("end") => depth -= 1,
            _ => {}
        }
        if depth == 0 {
            return Ok(at);
        }
    }
    Err(wrong(&lines[repeat_at], "repeat without end"))
}

/// Puts numbers in place of `{...}`.
fn substitute(line: &Line, text: &str, numbers: &[(String, i64)]) -> Result<String, String> {
    let mut result = String::new();
    let mut rest = text;
    while let Some((before, after)) = rest.split_once('{') {
        let Some((expression, after)) = after.split_once('}') else {
            return Err(wrong(line, "{ without }"));
        };
        let Some(number) = evaluate(expression, numbers) else {
            return Err(wrong(line, "expression"));
        };
        result.push_str(before);
        result.push_str(&number.to_string());
        rest = after;
    }
    result.push_str(rest);
    Ok(result)
}

fn evaluate_in_line(line: &Line, expression: &str) -> Result<i64, String> {
    evaluate(expression, &[]).ok_or_else(|| wrong(line, "number"))
}

/// Sums and differences of numbers, names and products of those: `8826+2*d`.
fn evaluate(expression: &str, numbers: &[(String, i64)]) -> Option<i64> {
    let mut sum: i64 = 0;
    let mut rest = expression.trim();
    let mut sign = 1;
    if let Some(after) = rest.strip_prefix('-') {
        sign = -1;
        rest = after;
    }
    loop {
        let term_length = rest.find(['+', '-']).unwrap_or(rest.len());
        let (term, after) = rest.split_at(term_length);
        let mut product: i64 = 1;
        for factor in term.split('*') {
            product = product.checked_mul(factor_value(factor.trim(), numbers)?)?;
        }
        sum = sum.checked_add(sign * product)?;
        let Some(operator) = after.chars().next() else {
            return Some(sum);
        };
        sign = if operator == '-' { -1 } else { 1 };
        rest = &after[1..];
    }
}

fn factor_value(factor: &str, numbers: &[(String, i64)]) -> Option<i64> {
    // The innermost repeat wins where a name is used twice.
    match numbers.iter().rev().find(|(name, _)| name == factor) {
        Some((_, number)) => Some(*number),
        None => factor.parse().ok(),
    }
}

fn wrong(line: &Line, what: &str) -> String {
    format!("line {}: {}: {}", line.number, what, line.text)
}

#[cfg(test)]
mod tests {
    use super::*;

    fn texts(source: &str) -> Vec<String> {
        let lines = expand(source).unwrap();
        lines.into_iter().map(|line| line.text).collect()
    }

    #[test]
    fn writes_out_nested_blocks() {
        let source = "repeat a 0 1 # comment\n repeat b {a} 1\n x {10*a+b} {b-a}\n end\nend\ny";
        assert_eq!(texts(source), ["x 0 0", "x 1 1", "x 11 0", "y"]);
    }

    #[test]
    fn names_the_line_of_a_slip() {
        assert!(expand("x\nend").unwrap_err().starts_with("line 2"));
        assert!(expand("repeat a 0 1\nx").unwrap_err().starts_with("line 1"));
        assert!(expand("x {q}").unwrap_err().starts_with("line 1"));
    }
}
