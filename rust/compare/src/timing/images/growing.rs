//! Images that grow by lines about formulas of their own, up to 500 formulas, then by the same lines again; no line is by rows.

use super::matching;
use reference::checker::frames::LINE;
use reference::checker::limits::{FORMULAS, LINES};
use reference::formula::{Assertion, Interval};
use reference::image::written::{image_bytes, Record};
use reference::proof::{around, implies, included, seen, triple, Lemma};
use sets::examples::deep::chops;

/// The longest of these images with at most so many bytes. Those above 64 KB have longer formulas.
pub fn image(bytes: usize) -> Vec<u8> {
    let wide = bytes > 64 << 10;
    let mut plan = matching::plan();
    let mut longest = plan.records();
    for lemma in (0..).flat_map(|seed| lines(seed, wide)) {
        plan.spare.push(lemma);
        let longer = plan.written();
        if longer.formulas.len() > FORMULAS || longer.bytes().len() > bytes {
            break;
        }
        longest = longer.records();
    }
    again(longest, bytes)
}

/// The lines of an image written once more, in their order, as far as the bytes go and lines may be.
fn again(records: Vec<Record>, bytes: usize) -> Vec<u8> {
    let lines: Vec<Record> = records.iter().filter(|r| r.kind == LINE).cloned().collect();
    let mut room = bytes - image_bytes(&records).len();
    let fits = |line: &&Record| {
        let enough = room >= line.bytes().len();
        room = room.saturating_sub(line.bytes().len());
        enough
    };
    let more = lines.iter().cycle().take(LINES - lines.len()).take_while(fits);
    let more: Vec<Record> = more.cloned().collect();
    let (obligations, front) = records.split_last().expect("an image has records");
    image_bytes(&[front, &more, std::slice::from_ref(obligations)].concat())
}

/// Lines about two intervals, of which the first may be wide, short ones first.
fn lines(seed: usize, wide: bool) -> Vec<Lemma> {
    let i = || match wide {
        true => Interval::both(chops(seed, 8), chops(seed + 1, 8)),
        false => chops(seed, 7),
    };
    let j = || chops(seed + 2, 4);
    let sees = |interval: Interval| Assertion::sees(2, interval);
    let (one, both) = (sees(i()), Assertion::both(sees(i()), Assertion::truth()));
    let included_in_itself = included(46, i(), i(), &[]);
    let longer = seen(2, &included(36, i(), Interval::chop(i(), j()), &[]));
    let kept = |point| triple(1, (1, point), one.clone(), one.clone(), &[]);
    vec![
        seen(2, &included_in_itself),
        kept(0),
        kept(1),
        around(&implies(20, both.clone(), one.clone(), &[]), &kept(0), &longer),
        around(&implies(20, both, one.clone(), &[]), &kept(1), &longer),
        included(39, Interval::both(i(), j()), i(), &[]),
        matching::stored(seed),
    ]
}
