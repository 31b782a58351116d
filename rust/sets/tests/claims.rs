//! Claims against the machine: in no state of an accepted image are the two threads at their points.

use reference::checker::{check, decode};
use reference::explore::{reachable, Bounds};
use sets::generate::image;

const BOUNDS: Bounds = Bounds { steps: 6, writes: 4, starts: 6, states: usize::MAX };

#[test]
fn accepted_claims_are_never_broken() {
    let (mut shown, mut refused, mut met) = (0, 0, 0);
    for seed in 0..8000 {
        let bytes = image(seed);
        let Ok(image) = decode(&bytes) else { continue };
        if image.claims.is_empty() {
            continue;
        }
        let accepted = match check(&bytes).code {
            0 => true,
            26 => false,
            _ => continue,
        };
        let states = reachable(&image.program, BOUNDS);
        for claim in &image.claims {
            let meets = states.iter().any(|state| state.has_meeting(&claim.meeting));
            assert!(!accepted || !meets, "seed {seed}: {claim:?}");
            met += usize::from(meets);
        }
        *(if accepted { &mut shown } else { &mut refused }) += 1;
    }
    println!("{shown} images accepted, {refused} refused, {met} claims of these broken");
    assert!(shown >= 100 && refused >= 100 && met >= 100);
}
