//! Which crates a program is built from, in the order in which rt proves them.

use std::collections::HashMap;

type Needs<'a> = HashMap<&'a str, Vec<&'a str>>;

fn listed(text: &str) -> Needs<'_> {
    text.lines()
        .filter_map(|line| line.split('#').next()?.split_once(':'))
        .map(|(name, needs)| (name.trim(), needs.split_whitespace().collect()))
        .collect()
}

/// A crate's level is one more than the highest among those that it needs. Crates that are not listed are the toolchain's.
fn visit<'a>(
    name: &'a str,
    needs: &Needs<'a>,
    plan: &mut Vec<(usize, &'a str)>,
    depth: usize,
) -> usize {
    if let Some(&(level, _)) = plan.iter().find(|&&(_, planned)| planned == name) {
        return level;
    }
    let below = match needs.get(name) {
        // crates that need each other are for rt to refuse
        Some(below) if depth <= needs.len() => below,
        _ => return 0,
    };
    let level = below
        .iter()
        .filter(|other| needs.contains_key(*other))
        .map(|other| visit(other, needs, plan, depth + 1) + 1)
        .max()
        .unwrap_or(0);
    plan.push((level, name));
    level
}

/// The crates that are proved for some programs, by the text of crates.txt.
pub fn plan(text: &str, programs: &[&str]) -> Vec<String> {
    let needs = listed(text);
    let mut plan = Vec::new();
    for program in programs {
        visit(program, &needs, &mut plan, 0);
    }
    plan.sort_by_key(|&(level, _)| level);
    plan.into_iter()
        .map(|(_, name)| String::from(name))
        .collect()
}

#[cfg(test)]
mod tests {
    use super::*;

    #[test]
    fn crates_come_behind_those_that_they_need() {
        let text = "# the first\nlow:\nmid: low\ntop: mid low io # a remark\nother:\n";
        assert_eq!(plan(text, &["top"]), ["low", "mid", "top"]);
        assert_eq!(
            plan(text, &["top", "other"]),
            ["low", "other", "mid", "top"]
        );
        assert!(plan(text, &["none"]).is_empty());
    }

    #[test]
    fn crates_that_need_each_other_end() {
        assert!(!plan("a: b\nb: a\n", &["a"]).is_empty());
    }
}
