//! Reads callgrind's files: the instructions of each function, and those of its
//! calls. The format is in Valgrind's manual ("Callgrind format specification").

use std::collections::HashMap;

/// By the name of the function, and of the function that it calls.
#[derive(Default)]
pub struct Costs {
    /// Without its calls.
    own: HashMap<String, u64>,
    /// Number of calls, and the instructions in them.
    calls: HashMap<(String, String), (u64, u64)>,
}

/// The costs of a file of one event.
pub fn costs_of(text: &str) -> Result<Costs, String> {
    let mut costs = Costs::default();
    let mut names = HashMap::new();
    let (mut function, mut called, mut count) = (String::new(), String::new(), None);
    for line in text.lines() {
        if let Some(name) = line.strip_prefix("fn=") {
            function = name_of(name, &mut names);
        } else if let Some(name) = line.strip_prefix("cfn=") {
            called = name_of(name, &mut names);
        } else if let Some(numbers) = line.strip_prefix("calls=") {
            let number = numbers.split_whitespace().next();
            count = number.and_then(|number| number.parse::<u64>().ok());
        } else if line.starts_with(|c: char| c.is_ascii_digit() || "+-*".contains(c)) {
            // A place in the source, and the instructions there or in the call above.
            let Some(cost) = line.split_whitespace().nth(1) else {
                continue;
            };
            let cost: u64 = cost.parse().map_err(|_| format!("no cost: {line}"))?;
            match count.take() {
                Some(number) => {
                    let key = (function.clone(), called.clone());
                    let sum = costs.calls.entry(key).or_default();
                    *sum = (sum.0 + number, sum.1 + cost);
                }
                None => *costs.own.entry(function.clone()).or_default() += cost,
            }
        }
    }
    Ok(costs)
}

/// `(7) name` the first time, `(7)` afterwards.
fn name_of(text: &str, names: &mut HashMap<String, String>) -> String {
    let (key, name) = text.split_once(' ').unwrap_or((text, ""));
    if name.is_empty() {
        return names.get(key).cloned().unwrap_or_default();
    }
    names.insert(key.to_string(), name.to_string());
    name.to_string()
}

impl Costs {
    /// The calls of a function below a caller, and the instructions in them: the name
    /// of a function whose callers are told apart has those behind it.
    pub fn called(&self, caller: &str, function: &str) -> Result<(u64, u64), String> {
        let is_meant = |name: &str| {
            let mut parts = name.split('\'');
            parts.next() == Some(function) && parts.any(|part| is_named(part, caller))
        };
        let calls = self.calls.iter().filter(|((_, to), _)| is_meant(to));
        let sum = calls.fold((0, 0), |sum, (_, (number, cost))| {
            (sum.0 + number, sum.1 + cost)
        });
        match sum.0 {
            0 => Err(format!("{caller} never calls {function}")),
            _ => Ok(sum),
        }
    }

    /// The functions that take the most themselves, with their shares of all.
    pub fn most(&self, count: usize) -> Vec<(&str, f64)> {
        let all: u64 = self.own.values().sum();
        let mut functions: Vec<(&str, u64)> = self
            .own
            .iter()
            .map(|(name, cost)| (name.split('\'').next().unwrap_or(name), *cost))
            .collect();
        functions.sort_by_key(|(name, cost)| (u64::MAX - cost, *name));
        functions.truncate(count);
        let share = |cost: u64| cost as f64 / all as f64;
        functions
            .into_iter()
            .map(|(name, cost)| (name, share(cost)))
            .collect()
    }

    /// The instructions of a function and of all that it calls.
    pub fn inclusive(&self, function: &str) -> Result<u64, String> {
        let own = self.own.iter().filter(|(name, _)| is_named(name, function));
        let calls = self.calls.iter();
        let calls = calls.filter(|((from, _), _)| is_named(from, function));
        let own: u64 = own.map(|(_, cost)| cost).sum();
        match own + calls.map(|(_, (_, cost))| cost).sum::<u64>() {
            0 => Err(format!("{function} is never called")),
            sum => Ok(sum),
        }
    }
}

/// Rust's names have a path before them.
fn is_named(name: &str, wanted: &str) -> bool {
    name.split("::").any(|part| part == wanted)
}
