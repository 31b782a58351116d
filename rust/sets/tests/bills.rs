//! Bills counted by hand, and sums against the verdict's count.

use reference::bill::{bill, Bill, Tariff};
use reference::checker::check;
use sets::examples::{largest, message_passing, two_writes};
use sets::generate::clutter;

/// Each price is another power of ten, so that a bill shows how many obligations of each class there are.
const TELLING: Tariff = Tariff { start: 1, step: 10, taken: 100, interference: 1000, least: 0 };

#[test]
fn message_passing_by_hand() {
    // The writer has two stores and three points; the reader two loads, a branch and four points. Class 1: 1 and 1.
    // Class 2: 2, and 3 with the branch not taken. Class 3: the branch. Class 4: the writer's 2 stores at 4 points,
    // the reader's 2 loads at 3 points.
    let threads = [1 + 2 * 10 + 2 * 4 * 1000, 1 + 3 * 10 + 100 + 2 * 3 * 1000, 0, 0];
    let cents = 2 + 5 * 10 + 100 + 14 * 1000;
    let expected = Bill { code: 0, cents, billed: 1, threads };
    assert_eq!(bill(&message_passing().bytes(), &TELLING, 0), expected);
}

#[test]
fn two_writes_by_hand() {
    // Two stores, three points; two loads, three points.
    let thread = 1 + 2 * 10 + 2 * 3 * 1000;
    let expected = Bill { code: 0, cents: 2 * thread, billed: 10, threads: [thread, thread, 0, 0] };
    assert_eq!(bill(&two_writes().bytes(), &TELLING, 9), expected);
}

#[test]
fn the_dearest_bill() {
    // Four threads of 16 points without a branch: 4, 60, and 60 actions at 48 points each.
    let top = 65_535;
    let all = Tariff { start: top, step: top, taken: top, interference: top, least: top };
    let thread = 65_535 * (1 + 15 + 15 * 48);
    let expected = Bill { code: 0, cents: 192_935_040, billed: 1, threads: [thread; 4] };
    assert_eq!(bill(&largest(), &all, 0), expected);
}

#[test]
fn a_cent_each_is_the_count() {
    let each = Tariff { start: 1, step: 1, taken: 1, interference: 1, least: 0 };
    for seed in 0..1500 {
        let image = clutter::image(seed);
        let verdict = check(&image);
        let bill = bill(&image, &each, 4);
        if verdict.code != 0 {
            assert_eq!(bill, Bill { code: 30, billed: 4, ..Bill::default() });
        } else {
            assert_eq!((bill.code, bill.billed), (0, 5));
            assert_eq!(bill.cents, verdict.count.into());
            assert_eq!(bill.threads.iter().sum::<u32>(), bill.cents);
        }
    }
}
