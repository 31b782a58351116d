//! Images with whole proofs, written by hand.

pub mod deep;
mod largest;
mod message_passing;
pub mod program_inputs;
mod two_writes;
pub mod update;

pub use largest::largest;
pub use message_passing::message_passing;
pub use two_writes::two_writes;

#[cfg(test)]
mod tests {
    use super::{largest, message_passing, two_writes};
    use reference::checker::rules::justified_lines;
    use reference::checker::{check, decode};
    use reference::explore::{explore, Bounds, Outcome};

    #[test]
    fn proofs_are_accepted() {
        // 2 starts, 2 + 4 steps, 3 points against 2 loads, 4 points against 2 stores
        assert_eq!(check(&message_passing().bytes()).to_string(), "0 0 0 0 0 0 0 0 22");
        // 2 starts, 2 + 2 steps, 3 points against 2 loads, 3 points against 2 stores
        assert_eq!(check(&two_writes().bytes()).to_string(), "0 0 0 0 0 0 0 0 18");
    }

    #[test]
    fn the_largest_image_has_as_much_as_may_be() {
        let bytes = largest();
        // 4 starts, 60 steps, 60 actions against 48 points each
        assert_eq!(check(&bytes).to_string(), "0 0 0 0 0 0 0 0 2944");
        assert!((190_000..220_000).contains(&bytes.len()), "{} bytes", bytes.len());
        let image = decode(&bytes).expect("in order");
        assert_eq!(image.lines.len(), 4000);
        assert!(justified_lines(&image).iter().all(|justified| *justified));
    }

    #[test]
    fn outlines_hold_in_all_states() {
        for plan in [message_passing(), two_writes()] {
            let found = explore(
                &plan.program,
                &[],
                Bounds { steps: 20, writes: 5, starts: 4096, states: 2_000_000 },
            );
            assert_eq!(found.outcome, Outcome::Holds { all: true });
        }
    }
}
