//! Does a read-modify-write that is not both acquiring and releasing do what the machine's does, and is a kernel's load
//! followed by nothing that its model orders otherwise?
//!
//! The machine's read-modify-writes acquire and release. One that only acquires differs in what it would release: in
//! nothing, if its thread has accessed nothing before. One that only releases differs in what it would acquire: in nothing,
//! if its thread accesses nothing later. The release sequence goes on through each of them.

use super::access::Order;
use super::lower::{Code, Placed};
use super::{refuse, Read};
use reference::image::{Access, Instruction};
use std::collections::BTreeSet;

/// Refuses the first access for which the machine has no exact counterpart.
pub fn check(code: &Code) -> Read<()> {
    (0..code.placed.len()).try_for_each(|point| {
        read_modify_write(code, point)?;
        kernel_load(code, point)
    })
}

/// The points that can be reached from one by a step or more.
fn behind(code: &Code, point: usize) -> BTreeSet<usize> {
    let next = |point: usize| -> Vec<usize> {
        match &code.placed[point].instruction {
            Instruction::Branch { target, .. } => vec![point + 1, usize::from(*target)],
            Instruction::Act { .. } => vec![point + 1],
        }
    };
    let mut found = BTreeSet::new();
    let mut open = next(point);
    while let Some(point) = open.pop() {
        if point < code.placed.len() && found.insert(point) {
            open.extend(next(point));
        }
    }
    found
}

fn is_access(placed: &Placed) -> bool {
    placed.instruction.access().is_some()
}

fn read_modify_write(code: &Code, point: usize) -> Read<()> {
    let placed = &code.placed[point];
    let Some((order, _)) = placed.order else { return Ok(()) };
    let access = placed.instruction.access();
    let is_both = matches!(
        access,
        Some(Access::Swap { .. } | Access::Exchange { .. } | Access::FetchAdd { .. })
    );
    if !is_both || order == Order::Both {
        return Ok(());
    }
    let later = behind(code, point).iter().any(|other| is_access(&code.placed[*other]));
    let earlier = (0..code.placed.len())
        .any(|other| is_access(&code.placed[other]) && behind(code, other).contains(&point));
    let (is_wrong, why) = match order {
        Order::Acquire => (earlier, "only acquires, the machine's releases too: it fits where its thread accesses nothing before it"),
        Order::Release => (later, "only releases, the machine's acquires too: it fits where its thread accesses nothing behind it"),
        Order::Relaxed => (earlier || later, "does neither, the machine's acquires and releases: it fits where it is its thread's only access"),
        Order::Full => (earlier || later, "is a full barrier, the machine's acquires and releases: it fits where it is its thread's only access"),
        Order::Both => (false, ""),
    };
    match is_wrong {
        true => refuse(placed.at, format!("this read-modify-write {why}")),
        false => Ok(()),
    }
}

/// In the kernel's model a store behind `READ_ONCE` is ordered by a dependency or not at all; the machine always keeps it
/// behind, and lets it release nothing of what was read.
fn kernel_load(code: &Code, point: usize) -> Read<()> {
    let placed = &code.placed[point];
    let Some(Access::Load { word, .. }) = placed.instruction.access() else { return Ok(()) };
    if placed.order != Some((Order::Relaxed, true)) {
        return Ok(());
    }
    let is_ordered_otherwise = |other: &&usize| match code.placed[**other].instruction.access() {
        None | Some(Access::Load { .. }) => false,
        // Coherence keeps a relaxed store to the same word behind, in both models.
        Some(Access::Store { word: other, releasing: false, .. }) => other != word,
        Some(_) => true,
    };
    match behind(code, point).iter().find(is_ordered_otherwise) {
        None => Ok(()),
        Some(other) => refuse(
            code.placed[*other].at,
            format!(
                "the kernel's model orders this behind the `READ_ONCE` of line {} by a dependency or not at all, the machine always; \
                 `smp_load_acquire` there would say the same in both",
                placed.at.place.line
            ),
        ),
    }
}

#[cfg(test)]
mod tests {
    use crate::litmus::read::read;
    use reference::explore::Bounds;

    fn refused(body: &str) -> Option<String> {
        let text =
            format!("C t\n{{}}\nP0 (atomic_int* x, atomic_int* y) {{ {body} }}\nexists (true)\n");
        read(&text, Bounds::DEFAULT).err().map(|refusal| refusal.text)
    }

    const LOAD: &str = "int a = atomic_load_explicit(y, memory_order_relaxed);";

    /// An exchange of this order.
    fn exchange(order: &str) -> String {
        format!("int r = atomic_exchange_explicit(x, 1, memory_order_{order});")
    }

    #[test]
    fn weaker_read_modify_writes_fit_at_the_ends_of_a_thread() {
        for (order, before, behind) in [
            ("acq_rel", true, true),
            ("acquire", false, true),
            ("release", true, false),
            ("relaxed", false, false),
        ] {
            let one = exchange(order);
            assert_eq!(refused(&one), None, "{order} alone");
            assert_eq!(
                refused(&format!("{LOAD} {one}")).is_none(),
                before,
                "{order} behind a load"
            );
            assert_eq!(
                refused(&format!("{one} {LOAD}")).is_none(),
                behind,
                "{order} before a load"
            );
        }
        // In a loop it comes before and behind itself.
        let spin = "while (atomic_exchange_explicit(x, 1, memory_order_acquire)) { }";
        assert!(refused(spin).is_some_and(|why| why.contains("only acquires")));
        assert!(refused(&spin.replace("acquire", "acq_rel")).is_none());
    }

    #[test]
    fn a_store_behind_read_once_is_refused_but_for_a_relaxed_one_to_the_same_word() {
        let behind = |store: &str| refused(&format!("int r = READ_ONCE(*x); {store}"));
        assert_eq!(behind("WRITE_ONCE(*x, 2);"), None);
        for store in [
            "WRITE_ONCE(*y, 1);",
            "if (r) WRITE_ONCE(*y, 1);",
            "smp_store_release(x, 2);",
            "xchg_release(x, 1);",
        ] {
            assert!(
                behind(store).is_some_and(|why| why.contains("by a dependency or not at all")),
                "{store}"
            );
        }
        assert_eq!(refused("int r = smp_load_acquire(x); WRITE_ONCE(*y, 1);"), None);
        assert_eq!(refused("WRITE_ONCE(*y, 1); int r = READ_ONCE(*x);"), None);
    }
}
