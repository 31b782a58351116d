//! Each rule with a line that fits it and lines that nearly do.

use outline::build::build;
use outline::text::parse_source::parse;

/// Every kind of instruction: a has acquiring load, releasing store, swap, assignment; b relaxed ones;
/// c exchange and fetch-add; d pairs and two assignments.
const PROGRAM: &str = "
word x = 0
word y = 5
thread a
  registers r
  { true } r <-acq x { true } x :=rel 1 { true } swap x := 2 { true } r := r + 1 { true }
thread b
  registers q
  open registers o
  { true } q <- x { true } x := 1 { true }
thread c
  registers s, p
  { true } s <- exchange x := p + 1 { true } s <- fetch-add x + p { true }
thread d
  registers k, m
  { true } x :=rel m | k := m + 1 { true } swap x := 3 | m := 0 { true } k, m := m, k { true }
proof
";

/// Is the step of the proof accepted?
fn fits(step: &str) -> bool {
    let source = parse(&format!("{PROGRAM}{step}")).unwrap_or_else(|e| panic!("{step}: {e}"));
    build(&source).is_ok()
}

/// A line for each rule, the premises to be searched.
const FITTING: &[&str] = &[
    "step a 0: { b sees one x } to { b sees one x } by 1",
    "step a 1: { r = 1 and b sees one y } to { r = 1 and b sees one y } by 1",
    "step a 3: { r + 1 = 2 } to { r = 2 } by 2",
    "step a 0: { a sees [x = 1] } to { r = 1 } by 3",
    "step a 1: { a sees one x } to { a sees one x = 1 } by 6",
    "step a 1: { a sees one x and b sees [x = 0] } to { b sees [x = 0] ; one x = 1 } by 7",
    "step a 1: { a sees one x and a sees [y = 1] } to { a sees [y = 1] ; one x = 1 } by 7",
    "step a 1: { a sees one x and b sees [x = 0] and a sees [y = 1] }
       to { b sees [x = 0] ; [unsync x] ; [y = 1] } by 8",
    "step a 0: { a sees [x = 0] ; [y = 1] } to { r = 0 or a sees [y = 1] } by 4",
    "step a 0: { a sees [unsync x] ; [y = 1] } to { a sees [y = 1] } by 5",
    "step a 2: { a sees [unsync x] ; [y = 1] } to { a sees [y = 1] } by 5",
    "step b 1: { b sees [cov x] ; [y = 1] } to { b sees [y = 1] } by 10",
    "step a 1: { r = 1 and q = 1 } to { r < 2 and q = 1 } by 14",
    "step a 1: { r = 1 or q = 1 } to { r < 2 or q = 1 } by 15",
    "step b 1: { a sees [x < 2] and a sees [1 < 2] } to { a sees [x < 2] } by 9",
    "step a 2: { a sees [x < 3 or cov y] and a sees [2 < 3 or cov y] }
       to { a sees [x < 3 or cov y] } by 9",
    "step a 2: { a sees [cov x] ; one x } to { a sees one x = 2 } by 11",
    "step a 2: { a sees [cov x] ; one x and b sees [cov x] ; one x }
       to { b sees [cov x] ; one x = 2 } by 12",
    "step a 2: { a sees [cov x] ; one x and b sees [cov x] ; one x and a sees [y = 1] }
       to { b sees [cov x] ; [unsync x] ; [y = 1] } by 13",
    "step c 0: { p = 1 and b sees one y } to { p = 1 and b sees one y } by 1",
    "step c 1: { c sees [unsync x] ; [y = 1] } to { c sees [y = 1] } by 5",
    "step c 0: { c sees [cov x] ; [y = 1] } to { c sees [y = 1] } by 10",
    "step c 1: { c sees [cov x] ; one x and b sees [cov x] ; one x and c sees [y = p] }
       to { b sees [cov x] ; [unsync x] ; [y = p] } by 13",
    "step c 0: { c sees [x < p] } to { s < p } by 47",
    "step c 1: { c sees [x = 1] } to { s = 1 } by 47",
    "step c 0: { c sees [cov x] ; one x } to { c sees one x = p + 1 } by 48",
    "step c 1: { c sees [cov x] ; one x } to { c sees one x = s + p } by 48",
    "step c 0: { c sees [cov x] ; one x and b sees [cov x] ; one x }
       to { b sees [cov x] ; one x = p + 1 } by 49",
    "step c 1: { c sees [cov x] ; one x and b sees [cov x] ; one x }
       to { b sees [cov x] ; one x = s + p } by 49",
    "step d 2: { m = 1 and k = 2 } to { k = 1 and m = 2 } by 2",
    "step d 2: { d sees [x = m + k] } to { d sees [x = k + m] } by 2",
    "step d 0: { d sees one x } to { d sees one x = m } by 6",
    "step d 0: { k = 1 } to { k = 1 } by 1",
    "step d 0: { d sees one x and m = 1 } to { d sees one x = m and k = 2 } by 50",
    "step d 0: { d sees one x and m = 1 } to { d sees one x = m and k = 2 }",
    "step d 0: { d sees one x and m = k } to { d sees one x & [x = m and k = x + 1] } by 50",
    "step d 1: { a sees [cov x] ; one x and d sees [cov x] ; one x } to { a sees [cov x] ; one x = 3 and m = 0 } by 50",
    "fact { r = 1 or q = 1 } to { q = 1 or r = 1 } by 20",
    "fact { r = 1 or q = 1 } to { q < 2 or r < 2 } by 20",
    "fact { r = 1 } to { r < 2 } by 21",
    "fact { a sees [x = 1] ; one y } to { a sees [x < 2] ; one y } by 22",
    "fact { a sees [x = r and r = 1] } to { r < 2 } by 23",
    "fact { r = 1 } to { b sees [r < 2 or x = 1] } by 24",
    "fact { a sees one x and a sees one y } to { a sees one x & one y } by 25",
    "fact { start } to { b sees one y = 5 } by 26",
    "fact { start } to { q = 0 } by 27",
    "part [x = 1] in [x < 2] by 30",
    "part one x ; [x = 1] in one x ; [x < 2] by 32",
    "part one x & [x = 1] in [x < 2] & one x by 41",
    "part [x = 1] | one x = 2 in [x < 3] by 44",
    "part (one x ; one y) ; [x = 1] in one x ; one y ; [x = 1] by 33",
    "part one x ; one y ; [x = 1] in (one x ; one y) ; [x = 1] by 34",
    "part one x in [x = 1] ; one x by 35",
    "part one x in one x ; [x = 1] by 36",
    "part [x = 1] ; [x = 1] in [x = 1] by 37",
    "part one x & (one y ; [x = 1]) in (one x & one y) ; (one x & [x = 1]) by 38",
    "part one x & one y in one x by 39",
    "part one x & one y in one y by 40",
    "part one x in one x | one y by 42",
    "part one y in one x | one y by 43",
    "part [x = 1] & [y = 1] in [x = 1 and y = 1] by 45",
    "part one x in one x by 46",
];

#[test]
fn lines_that_fit() {
    for step in FITTING {
        assert!(fits(step), "{step}");
    }
}

/// Lines that miss a side condition, an operation or a shape by a little.
const UNFITTING: &[&str] = &[
    "step a 0: { r = 1 } to { r = 1 } by 1",
    "step a 1: { b sees [y = 0] ; one x } to { b sees [y = 0] ; one x } by 1",
    "step a 2: { b sees [cov x] } to { b sees [cov x] } by 1",
    "step a 3: { q = 1 } to { q = 1 } by 1",
    "step a 3: { r = 2 } to { r = 2 } by 2",
    "step a 0: { b sees [x = 1] } to { r = 1 } by 3",
    "step a 0: { a sees [y = 1] } to { r = 1 } by 3",
    "step a 2: { a sees one x } to { a sees one x = 2 } by 6",
    "step a 1: { b sees one x } to { b sees one x = 1 } by 6",
    "step a 2: { a sees one x and b sees [x = 0] } to { b sees [x = 0] ; one x = 2 } by 7",
    "step b 1: { b sees one x and a sees [x = 0] and b sees [y = 1] }
       to { a sees [x = 0] ; [unsync x] ; [y = 1] } by 8",
    "step a 1: { a sees one x and b sees [x = 0] and a sees one x }
       to { b sees [x = 0] ; [unsync x] ; one x } by 8",
    "step b 1: { a sees [not cov x] and a sees [not cov x] } to { a sees [not cov x] } by 9",
    "step b 1: { a sees [x < 2] } to { a sees [x < 2] } by 9",
    "step b 0: { b sees [unsync x] ; [y = 1] } to { b sees [y = 1] } by 5",
    "step a 1: { a sees [unsync x] ; [y = 1] } to { a sees [y = 1] } by 5",
    "step a 0: { a sees [cov x] ; [y = 1] } to { a sees [y = 1] } by 10",
    "step a 1: { b sees [cov x] ; [y = 1] } to { b sees [y = 1] } by 10",
    "step a 0: { a sees [x = 0] ; [y = 1] } to { r = 1 or a sees [y = 1] } by 4",
    "step a 1: { r = 1 and q = 1 } to { r = 2 and q = 1 } by 14",
    "step a 1: { a sees [cov x] ; one x } to { a sees one x = 1 } by 11",
    "step a 2: { b sees [cov x] ; one x and a sees [cov x] ; one x }
       to { b sees [cov x] ; one x = 2 } by 12",
    "step c 0: { s = 1 } to { s = 1 } by 1",
    "step c 1: { b sees [y = s] } to { b sees [y = s] } by 1",
    "step c 0: { b sees one x } to { b sees one x } by 1",
    "step c 1: { c sees [cov x] ; one x and b sees [cov x] ; one x and c sees [y = s] }
       to { b sees [cov x] ; [unsync x] ; [y = s] } by 13",
    "step c 0: { c sees [x = 1] } to { s = 1 } by 3",
    "step a 0: { a sees [x = 1] } to { r = 1 } by 47",
    "step c 0: { c sees [cov x] ; one x } to { c sees one x = p + 1 } by 11",
    "step c 1: { c sees [cov x] ; one x } to { c sees one x = p } by 48",
    "step c 1: { c sees [cov x] ; one x } to { c sees one x = p + s } by 48",
    "step a 2: { a sees [cov x] ; one x } to { a sees one x = 2 } by 48",
    "step c 0: { a sees [x < 2] and a sees [p + 1 < 2] } to { a sees [x < 2] } by 9",
    "step d 2: { m = 1 and m = 2 } to { k = 1 and m = 2 } by 2",
    "step d 2: { q = 1 } to { q = 1 } by 1",
    "step d 2: { m = 1 } to { k = 1 } by 50",
    "step d 0: { k = 1 } to { k = 1 } by 50",
    "step d 0: { k = 1 } to { k = 1 }",
    "step d 1: { m = 1 } to { m = 1 } by 50",
    "step d 1: { true } to { m = 0 } by 2",
    "step a 1: { a sees one x } to { a sees one x = 1 } by 50",
    "fact { r = 1 } to { q < 2 } by 20",
    "fact { a sees one x } to { b sees one x } by 22",
    "fact { r < 2 } to { r = 1 } by 21",
    "fact { a sees [x = r] } to { r = 1 } by 23",
    "fact { a sees one x and b sees one y } to { a sees one x & one y } by 25",
    "fact { start } to { b sees one y = 0 } by 26",
    "fact { start } to { q = 1 } by 27",
    "fact { start } to { o = 0 } by 27",
    "part [x < 2] in [x = 1] by 30",
    "part one x ; one x in one x by 37",
    "part one x ; [x = 1] in one x ; [x = 2] by 32",
    "part [x = 1] | one x = 2 in [x < 2] by 44",
    "part one x in one x ; one y by 35",
    "part one y & one x in one x by 39",
    "part one x in [true] by 30",
];

#[test]
fn lines_that_nearly_fit() {
    for step in UNFITTING {
        assert!(!fits(step), "{step}");
    }
}

#[test]
fn routine_steps_are_found() {
    let steps = [
        "fact { a sees [x = 0] and a sees [x = 1] } to { false }",
        "fact { a sees ([x = 0] ; [x = 1]) and a sees one y = 1 } to { a sees [x < 2 and y = 1] }",
        "fact { (r = 1 or a sees [x = 1]) and r = 0 } to { a sees [x != 0] or q = 7 }",
        "fact { start } to { a sees [x = r and y = 5] and q + r = 0 }",
        "fact { start } to { a sees [x = r and y + o = 5 + o] and q <= o }",
        "part [x = 0] ; one x = 1 ; [x = 2] in [x < 2] ; [x = 2]",
        "step a 0: { a sees [x = 0] ; [unsync x] ; [y = 1] } to { r = 0 or a sees [y = 1] }",
        "step a 2: { a sees [cov x] ; [unsync x] ; [y = 1] } to { a sees [y = 1] }",
        "step a 1: { a sees [cov x] ; one x } to { a sees [x = 1] }",
        "step a 3: { r = 7 or q = 1 } to { r = 0 or q = 1 }",
        "step b 1: { b sees one x and a sees [x = 0] and q = 0 } to { a sees [x = 0] ; [x = 1] and q < 2 }",
    ];
    for step in steps {
        assert!(fits(step), "{step}");
    }
}

#[test]
fn exchange_and_fetch_add_are_found() {
    let steps = [
        // 1, 5 and 10
        "step c 0: { p = 1 and b sees one y } to { p < 2 and b sees [y = 5] ; one y }",
        "step c 1: { c sees [cov x] ; [unsync x] ; [y = 1] } to { c sees [y < 2] }",
        // 47, and behind covered writes
        "step c 1: { c sees [x < 3] } to { s < 3 or p = 7 }",
        "step c 0: { c sees [cov x] ; [x = 2] } to { s = 2 }",
        "step c 0: { c sees [cov x] ; one x = p and p = 4 } to { s = 4 }",
        // 48
        "step c 0: { c sees [cov x] ; one x and p = 1 } to { c sees [x = p + 1] and p = 1 }",
        "step c 0: { c sees [cov x] ; one x and p = 1 } to { c sees one x = 2 }",
        "step c 1: { c sees [cov x] ; one x = 1 and p = 2 } to { c sees [x = 3] and s = 1 }",
        // 49
        "step c 0: { c sees [cov x] ; one x and b sees one x } to { b sees [cov x] ; [x = p + 1] }",
        "step c 1: { c sees [cov x] ; one x = 1 and b sees [cov x] ; one x and p = 2 }
           to { s = 1 and b sees [cov x] ; one x = 3 }",
        // 13
        "step c 1: { c sees [cov x] ; one x and b sees [cov x] ; one x and c sees [y = p] }
           to { b sees [cov x] ; [unsync x] ; [y = p] }",
    ];
    for step in steps {
        assert!(fits(step), "{step}");
    }
}

#[test]
fn the_wider_search_joins_registers_and_views() {
    let steps = [
        "fact { a sees one x & [q = 1] and b sees [q = 2] } to { false }",
        "step b 1: { b sees one x and q = 1 } to { b sees one x = q }",
        "step a 2: { a sees [cov x] ; one x and b sees one x and q = 2 } to { b sees [cov x] ; one x = q }",
        "step c 0: { c sees [cov x] ; one x = p } to { p = 1 and s = 1 or p != 1 and s != 1 }",
    ];
    for step in steps {
        assert!(fits(step), "{step}");
    }
}

#[test]
fn what_exchange_and_fetch_add_do_not_do_is_not_found() {
    let steps = [
        "step c 0: { s = 1 } to { s = 1 }",
        "step c 0: { b sees [x = 1] } to { s = 1 }",
        "step c 0: { c sees [cov x] ; [x = 1] and p = 1 } to { s = 2 }",
        "step c 0: { c sees [x = 2] ; [x = 1] } to { s = 1 }",
        "step c 1: { c sees [cov x] ; one x = 1 and p = 2 } to { c sees [x = 2] }",
        "step c 1: { c sees [cov x] ; one x = 1 and p = 2 } to { b sees [cov x] ; one x = 3 }",
        "step c 1: { c sees one x and b sees [x < 2] } to { b sees [x < 2] }",
        "step c 1: { c sees [cov x] ; one x and b sees [cov x] ; one x and c sees [y = s] }
           to { b sees [cov x] ; [unsync x] ; [y = s] }",
        "fact { a sees [x = 1] and b sees [x = 2] } to { false }",
        "step c 0: { c sees [cov x] ; one x = p } to { p = 1 and s = 1 or p != 1 and s = 1 }",
    ];
    for step in steps {
        assert!(!fits(step), "{step}");
    }
}

#[test]
fn what_is_false_is_not_found() {
    let steps = [
        "fact { a sees [x = 0] ; [x = 1] } to { a sees [x = 0] }",
        "fact { a sees one x = 0 or r = 1 } to { a sees [x = 0] }",
        "fact { start } to { a sees [x = 1] }",
        "fact { start } to { o = 0 }",
        "fact { start } to { a sees [x = o] }",
        "part [x < 2] ; [x = 2] in [x = 0] ; [x = 2]",
        "step b 0: { b sees [x = 0] ; [unsync x] ; [y = 1] } to { q = 0 or b sees [y = 1] }",
        "step b 1: { a sees [x = 0] and q = 0 } to { a sees [x = 0] ; [x = 1] }",
        "step a 2: { a sees one x and b sees one x } to { b sees one x }",
    ];
    for step in steps {
        assert!(!fits(step), "{step}");
    }
}
