//! Two texts side by side: what is reported for each change, and that the report leads from one text to the other.

use book_form::differences;
use std::collections::{BTreeMap, BTreeSet};

const FIRST: &str = "STACK CFI INIT 1000 40 .cfa: $rsp 8 + .ra: .cfa -8 + ^\n";
const LATER: &str = "STACK CFI 1004 .cfa: $rsp 16 +\n";
const LAST: &str = "STACK CFI 1008 .cfa: $rsp 24 +\n";
const SECOND: &str = "STACK CFI INIT 2000 20 .cfa: $rsp 8 + .ra: .cfa -8 + ^\n";
const THIRD: &str = "STACK CFI INIT 3000 30 .cfa: $rsp 8 + .ra: .cfa -8 + ^\n";

#[track_caller]
fn check(old: &[&str], new: &[&str], due: &[&str]) {
    let (old, new) = (old.concat(), new.concat());
    let found = differences(&old, &new);
    assert_eq!(found.to_string(), due.concat());
    assert_eq!(found.is_empty(), due == ["same records\n"]);
}

#[test]
fn equal_texts() {
    check(&[], &[], &["same records\n"]);
    check(&[FIRST, LATER, SECOND], &[FIRST, LATER, SECOND], &["same records\n"]);
    check(&[FIRST, FIRST, LATER], &[FIRST, FIRST, LATER], &["same records\n"]);
}

#[test]
fn added_and_removed() {
    let added = ["added 1000 40\n+ ", FIRST, "+ ", LATER, "1 added, 0 removed, 0 changed\n"];
    check(&[SECOND], &[FIRST, LATER, SECOND], &added);
    check(&[], &[FIRST, LATER], &added);
    let removed = ["removed 1000 40\n- ", FIRST, "- ", LATER, "0 added, 1 removed, 0 changed\n"];
    check(&[FIRST, LATER, SECOND], &[SECOND], &removed);
    check(&[FIRST, LATER], &[], &removed);
    let both = ["removed 1000 40\n- ", FIRST, "added 3000 30\n+ ", THIRD, "1 added, 1 removed, 0 changed\n"];
    check(&[FIRST, SECOND], &[SECOND, THIRD], &both);
}

#[test]
fn addresses_are_numbers() {
    let (middle, high) = ("STACK CFI INIT fff0 8 .cfa: $rsp 8 +\n", "STACK CFI INIT 10000 8 .cfa: $rsp 8 +\n");
    let due = ["added 2000 20\n+ ", SECOND, "added fff0 8\n+ ", middle, "added 10000 8\n+ ", high];
    check(&[], &[high, middle, SECOND], &[&due[..], &["3 added, 0 removed, 0 changed\n"]].concat());
}

#[test]
fn a_changed_first_line() {
    let other = "STACK CFI INIT 1000 40 .cfa: $rsp 16 + .ra: .cfa -8 + ^\n";
    let due = ["changed 1000 40\n- ", FIRST, "+ ", other, "0 added, 0 removed, 1 changed\n"];
    check(&[FIRST, LATER, SECOND], &[other, LATER, SECOND], &due);
    // It goes before a line with a lower address.
    let low = "STACK CFI 900 .cfa: $rsp 16 +\n";
    let due = ["changed 1000 40\n- ", FIRST, "+ ", other, "+ ", low, "0 added, 0 removed, 1 changed\n"];
    check(&[FIRST], &[other, low], &due);
}

#[test]
fn another_size() {
    let other = "STACK CFI INIT 1000 44 .cfa: $rsp 8 + .ra: .cfa -8 + ^\n";
    let due = ["changed 1000 40\n- ", FIRST, "+ ", other, "0 added, 0 removed, 1 changed\n"];
    check(&[FIRST, LATER], &[other, LATER], &due);
    // The same size goes before the order.
    let longer = "STACK CFI INIT 1000 44 .cfa: $rbp 8 +\n";
    let same = "STACK CFI INIT 1000 40 .cfa: $rbp 8 +\n";
    let due = ["changed 1000 40\n- ", FIRST, "+ ", same, "changed 1000 44\n- ", other, "+ ", longer];
    check(&[FIRST, other], &[longer, same], &[&due[..], &["0 added, 0 removed, 2 changed\n"]].concat());
}

#[test]
fn changed_later_lines() {
    let (later, last) = ("STACK CFI 1004 .cfa: $rbp 16 +\n", "STACK CFI 1008 .cfa: $rbp 24 +\n");
    let one = ["changed 1000 40\n- ", LATER, "+ ", later, "0 added, 0 removed, 1 changed\n"];
    check(&[FIRST, LATER, LAST, SECOND], &[FIRST, later, LAST, SECOND], &one);
    let two = ["changed 1000 40\n- ", LATER, "+ ", later, "- ", LAST, "+ ", last, "0 added, 0 removed, 1 changed\n"];
    check(&[FIRST, LATER, LAST], &[FIRST, later, last], &two);
}

#[test]
fn a_later_line_more_or_less() {
    let added = ["changed 1000 40\n+ ", LATER, "0 added, 0 removed, 1 changed\n"];
    check(&[FIRST, LAST, SECOND], &[FIRST, LATER, LAST, SECOND], &added);
    let removed = ["changed 1000 40\n- ", LATER, "0 added, 0 removed, 1 changed\n"];
    check(&[FIRST, LATER, LAST, SECOND], &[FIRST, LAST, SECOND], &removed);
    let later = "STACK CFI 1006 .cfa: $rsp 16 +\n";
    let elsewhere = ["changed 1000 40\n- ", LATER, "+ ", later, "0 added, 0 removed, 1 changed\n"];
    check(&[FIRST, LATER, LAST], &[FIRST, later, LAST], &elsewhere);
}

/// A later line without an INIT before it stands alone; behind another record it belongs to that one, as a reader takes it.
#[test]
fn later_lines_without_init() {
    let alone = ["changed 1004\n- ", LATER, "+ STACK CFI 1004 .cfa: $rbp 16 +\n", "0 added, 0 removed, 1 changed\n"];
    check(&[LATER, LAST], &["STACK CFI 1004 .cfa: $rbp 16 +\n", LAST], &alone);
    let removed = ["removed 1004\n- ", LATER, "0 added, 1 removed, 0 changed\n"];
    check(&[LATER, LAST], &[LAST], &removed);
    let behind = ["changed 1000 40\n+ STACK CFI 2004 .ra: $rip\n", "0 added, 0 removed, 1 changed\n"];
    check(&[FIRST], &[FIRST, "STACK CFI 2004 .ra: $rip\n"], &behind);
}

#[test]
fn one_address_and_size_twice() {
    let [one, two, three] = ["8", "16", "24"].map(|n| format!("STACK CFI INIT 1000 40 .cfa: $rsp {n} +\n"));
    let [one, two, three] = [&one[..], &two, &three];
    // In their order, but for those that are equal.
    let first = ["changed 1000 40\n- ", one, "+ ", three, "0 added, 0 removed, 1 changed\n"];
    check(&[one, two], &[three, two], &first);
    let second = ["changed 1000 40\n- ", two, "+ ", three, "0 added, 0 removed, 1 changed\n"];
    check(&[one, two], &[one, three], &second);
    let both = [
        "changed 1000 40\n- ",
        one,
        "+ ",
        FIRST,
        "changed 1000 40\n- ",
        two,
        "+ ",
        three,
        "0 added, 0 removed, 2 changed\n",
    ];
    check(&[one, two], &[FIRST, three], &both);
    check(&[one, two], &[two], &["removed 1000 40\n- ", one, "0 added, 1 removed, 0 changed\n"]);
    check(&[one], &[one, one], &["added 1000 40\n+ ", one, "1 added, 0 removed, 0 changed\n"]);
}

#[test]
fn moved_records() {
    let last = ["moved 1000 40 behind 3000 30\n~ ", FIRST, "0 added, 0 removed, 0 changed, 1 moved\n"];
    check(&[FIRST, LATER, SECOND, THIRD], &[SECOND, THIRD, FIRST, LATER], &last);
    let first = ["moved 3000 30 to the front\n~ ", THIRD, "0 added, 0 removed, 0 changed, 1 moved\n"];
    check(&[FIRST, LATER, SECOND, THIRD], &[THIRD, FIRST, LATER, SECOND], &first);
    let changed = "STACK CFI INIT 3000 30 .cfa: $rsp 16 +\n";
    let both = [
        "moved 1000 40 behind 2000 20\n~ ",
        FIRST,
        "changed 3000 30\n- ",
        THIRD,
        "+ ",
        changed,
        "0 added, 0 removed, 1 changed, 1 moved\n",
    ];
    check(&[FIRST, SECOND, THIRD], &[SECOND, FIRST, changed], &both);
}

#[test]
fn lines_moved_within_a_record() {
    let due = ["changed 1000 40\n~ ", LATER, "0 added, 0 removed, 1 changed\n"];
    check(&[FIRST, LATER, LAST], &[FIRST, LAST, LATER], &due);
}

#[test]
fn win_lines() {
    let [one, two] = ["0 1000 40 3 0 0 4 0 0 0 0\n", "4 1000 40 3 0 0 4 0 0 1 $eip 4 + ^ =\n"];
    let (one, two) = (&*format!("STACK WIN {one}"), &*format!("STACK WIN {two}"));
    let other = "STACK WIN 4 1000 40 3 0 0 8 0 0 1 $eip 4 + ^ =\n";
    let typed = ["changed 1000 40\n- ", two, "+ ", other, "0 added, 0 removed, 1 changed\n"];
    check(&[one, two], &[one, other], &typed);
    // The type goes before the order.
    let third = "STACK WIN 0 1000 40 3 0 0 8 0 0 0 0\n";
    let crossed = [
        "changed 1000 40\n- ",
        one,
        "+ ",
        third,
        "changed 1000 40\n- ",
        two,
        "+ ",
        other,
        "0 added, 0 removed, 2 changed\n",
    ];
    check(&[one, two], &[other, third], &crossed);
    check(&[one], &[two], &["changed 1000 40\n- ", one, "+ ", two, "0 added, 0 removed, 1 changed\n"]);
    let later = "STACK WIN 4 2000 40 3 0 0 8 0 0 1 $eip 4 + ^ =\n";
    check(&[one, two], &[one, later, two], &["added 2000 40\n+ ", later, "1 added, 0 removed, 0 changed\n"]);
}

// ---- variations

/// Numbers that look random, the same in every run.
struct Numbers(u64);

impl Numbers {
    fn below(&mut self, bound: usize) -> usize {
        self.0 = self.0.wrapping_mul(6_364_136_223_846_793_005).wrapping_add(1_442_695_040_888_963_407);
        (self.0 >> 33) as usize % bound
    }

    /// A record of few addresses, sizes and rules, so that many are alike.
    fn record(&mut self, win: bool) -> Vec<String> {
        let address = 0x1000 + 0x100 * self.below(6);
        let (size, rule) = (0x20 + 0x10 * self.below(2), 8 * self.below(3));
        if win {
            return vec![format!("STACK WIN {} {address:x} {size:x} 0 0 {rule} 0 0 0 0 0", 4 * self.below(2))];
        }
        let mut lines = vec![format!("STACK CFI INIT {address:x} {size:x} .cfa: $rsp {rule} +")];
        for _ in 0..self.below(4) {
            lines.push(self.later(address));
        }
        lines
    }

    fn later(&mut self, address: usize) -> String {
        format!("STACK CFI {:x} .cfa: $rsp {} +", address + 4 * self.below(4), 8 * self.below(3))
    }

    /// Changes the records at one place.
    fn vary(&mut self, records: &mut Vec<Vec<String>>, win: bool) {
        let (at, to) = (self.below(records.len() + 1), self.below(records.len() + 1));
        match self.below(6) {
            _ if at == records.len() => records.push(self.record(win)),
            0 => drop(records.remove(at)),
            1 => records.insert(at, self.record(win)),
            2 => records[at] = self.record(win),
            3 if !win => records[at].push(self.later(0x1000)),
            4 if records[at].len() > 1 => drop(records[at].pop()),
            _ => {
                let record = records.remove(at);
                records.insert(to.min(records.len()), record);
            }
        }
    }
}

fn text(records: &[Vec<String>]) -> String {
    records.iter().flatten().map(|line| format!("{line}\n")).collect()
}

fn counted(text: &str) -> BTreeMap<&str, i32> {
    let mut lines = BTreeMap::new();
    for line in text.lines() {
        *lines.entry(line).or_insert(0) += 1;
    }
    lines
}

/// Follows a report from the old lines, and checks what it says of each.
fn follow(report: &str, old: &str, new: &str) {
    let (old, new) = (counted(old), counted(new));
    let mut lines = old.clone();
    let (mut word, mut last, mut counts) = ("", 0, BTreeMap::new());
    let (body, summary) = report.trim_end().rsplit_once('\n').expect("a difference and the summary");
    for line in body.lines() {
        match line.split_at(2) {
            ("- ", line) if ["removed", "changed"].contains(&word) => *lines.entry(line).or_insert(0) -= 1,
            ("+ ", line) if ["added", "changed"].contains(&word) => *lines.entry(line).or_insert(0) += 1,
            ("~ ", line) if ["moved", "changed"].contains(&word) => {
                assert!(old.contains_key(line) && new.contains_key(line), "{report}");
            }
            _ => {
                let words: Vec<&str> = line.split(' ').collect();
                let address = u64::from_str_radix(words[1], 16).expect("an address");
                assert!(last <= address, "{report}");
                (word, last) = (words[0], address);
                *counts.entry(word).or_insert(0) += 1;
            }
        }
        assert!(lines.values().all(|&count| count >= 0), "{report}");
    }
    lines.retain(|_, count| *count > 0);
    assert_eq!(lines, new, "{report}");
    for said in summary.split(", ") {
        let (count, word) = said.split_once(' ').expect("a count");
        assert_eq!(count.parse(), Ok(counts.remove(word).unwrap_or(0)), "{report}");
    }
    assert!(counts.is_empty(), "{report}");
}

#[test]
fn reports_lead_from_one_text_to_the_other() {
    let mut numbers = Numbers(1);
    let (mut same, mut words) = (0, BTreeSet::new());
    for round in 0..20_000 {
        let win = round % 4 == 0;
        let old: Vec<Vec<String>> = (0..numbers.below(7)).map(|_| numbers.record(win)).collect();
        let mut new = old.clone();
        for _ in 0..numbers.below(4) {
            numbers.vary(&mut new, win);
        }
        let (old, new) = (text(&old), text(&new));
        let found = differences(&old, &new);
        let report = found.to_string();
        assert_eq!(found.is_empty(), old == new, "{old}\n{new}\n{report}");
        assert_eq!(report == "same records\n", old == new, "{old}\n{new}\n{report}");
        if old == new {
            same += 1;
            continue;
        }
        follow(&report, &old, &new);
        words.extend(report.lines().filter_map(|line| line.split(' ').next()).map(String::from));
    }
    assert!((1_000..15_000).contains(&same), "{same} of the texts were equal");
    for word in ["added", "removed", "changed", "moved", "-", "+", "~"] {
        assert!(words.contains(word), "no {word}");
    }
}
