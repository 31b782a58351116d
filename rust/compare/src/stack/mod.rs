//! How much stack a proved call takes, on a stack that is painted before.

mod calls;

use crate::driver::sources;
use crate::timing;
use calls::Measured;
use sets::vectors::Case;
use system::painted::Painted;

/// Of these images it is told for each call.
const NOTABLE: [&str; 6] =
    ["tiny", "message passing", "largest", "rows", "most rows", "truth tables"];

/// What a call took of the stack for an image, and its answer.
struct Taken<'a> {
    label: &'a str,
    bytes: usize,
    code: u16,
}

/// Measures each call on the images in files and folders, or, without any, on all
/// that are timed, the stored sets and the long inputs; false if one takes more than it is given.
pub fn run(paths: &[&str]) -> bool {
    let images = match images(paths) {
        Ok(images) => images,
        Err(fault) => {
            eprintln!("{fault}");
            return false;
        }
    };
    let memory = &mut Painted::new();
    let mut within = true;
    for call in calls::ALL {
        within &= is_within(memory, &call, &images);
    }
    within
}

fn images(paths: &[&str]) -> Result<Vec<Case>, String> {
    if !paths.is_empty() {
        let found = sources::files(paths)?;
        return match found.is_empty() {
            true => Err("there is no image".into()),
            false => Ok(found),
        };
    }
    let timed = timing::images::all().into_iter();
    let mut images: Vec<Case> = timed.map(|(name, make)| Case::new(name, make())).collect();
    for source in sources::sets().into_iter().chain([sources::stored(), sources::long()]) {
        let (name, cases) = source?;
        let labelled = |case: Case| Case::new(format!("{name}: {}", case.label), case.image);
        images.extend(cases.into_iter().map(labelled));
    }
    Ok(images)
}

/// Prints what a call takes, and answers whether that is no more than it is given.
fn is_within(memory: &mut Painted, call: &Measured, images: &[Case]) -> bool {
    let all: Vec<Taken> = images.iter().map(|case| taken(memory, call, case)).collect();
    // Of several that take as much the first is told.
    let least = all.iter().min_by_key(|taken| taken.bytes).expect("an image");
    let most = all.iter().rev().max_by_key(|taken| taken.bytes).expect("an image");
    println!("{}, to be given {} KB, on {} images", call.name, call.given >> 10, all.len());
    all.iter().filter(|taken| NOTABLE.contains(&taken.label)).for_each(|taken| tell("", taken));
    tell("least: ", least);
    tell("most: ", most);
    let within = most.bytes <= call.given;
    if !within {
        println!("MORE THAN {} IS GIVEN", call.name);
    }
    within
}

fn taken<'a>(memory: &mut Painted, call: &Measured, case: &'a Case) -> Taken<'a> {
    let (mut ready, mut code) = (call.on(&case.image), 0);
    let bytes = memory.taken(&mut || code = ready());
    Taken { label: &case.label, bytes, code }
}

fn tell(which: &str, taken: &Taken) {
    let Taken { label, bytes, code } = taken;
    println!("{:>7.1} KB, code {code:>2}, {which}{label}", *bytes as f64 / 1024.0);
}

#[cfg(test)]
mod tests {
    use super::*;
    use sets::examples::message_passing;

    /// Whether the checker's stack for message passing is within so many bytes.
    fn is_checked_within(given: usize) -> bool {
        let mut call = calls::CHECK;
        call.given = given;
        let image = Case::new("message passing", message_passing().bytes());
        is_within(&mut Painted::new(), &call, &[image])
    }

    #[test]
    fn the_checker_takes_no_more_than_it_is_given() {
        assert!(is_checked_within(calls::CHECK.given));
    }

    #[test]
    fn a_call_that_takes_more_is_reported() {
        assert!(!is_checked_within(16 << 10));
    }

    #[test]
    fn a_file_that_is_not_there_is_a_fault() {
        assert!(!run(&["no such file"]));
    }
}
