//! How often each reply, drop reason and report occurs in a replay's output.

use std::collections::BTreeMap;

fn kind_of(line: &str) -> Option<String> {
    let fields: Vec<&str> = line.split('\t').collect();
    match fields[..] {
        ["config", ..] => Some("config".to_string()),
        ["total", ..] => None,
        [_, "reply", reply, ..] => Some(format!("reply {reply:>2}")),
        [_, "drop", _, reason, ..] => Some(format!("drop {reason}")),
        [_, kind @ ("pause" | "resume" | "refused"), ..] => Some(kind.to_string()),
        _ => None,
    }
}

pub fn count(output: &str) -> String {
    let mut counts: BTreeMap<String, usize> = (0..12).map(|reply| (format!("reply {reply:>2}"), 0)).collect();
    for kind in ["drop 1", "drop 2", "pause", "resume"] {
        counts.insert(kind.to_string(), 0);
    }
    for kind in output.lines().filter_map(kind_of) {
        *counts.entry(kind).or_default() += 1;
    }
    counts.iter().map(|(kind, count)| format!("{kind}\t{count}\n")).collect()
}

#[cfg(test)]
mod tests {
    #[test]
    fn each_kind_is_counted() {
        let text = super::count("1\treply\t0\t5\taa\n1\tdrop\t7\t2\n2\treply\t11\n3\tpause\t9\n3\troute\t1\t0\n");
        for line in ["reply  0\t1", "reply 11\t1", "reply  5\t0", "drop 2\t1", "pause\t1", "resume\t0"] {
            assert!(text.lines().any(|given| given == line), "{line} in {text}");
        }
    }
}
