//! Who judges: the proved checker (feature `proved`), else the independent one.

/// The name of the proved checker, wherever it judges.
pub const PROVED: &str = "proved checker";
/// The name of the independent one, which alone knows further rules.
pub const INDEPENDENT: &str = "independent checker";

#[cfg(feature = "proved")]
mod linked {
    use reference::checker::verdict::{Verdict, RECORD_BYTES};

    pub const JUDGE: &str = super::PROVED;
    pub const KIT: Option<&str> = Some(hidokpalu::KIT);

    pub fn judge(image: &[u8]) -> Verdict {
        let mut record = [0; RECORD_BYTES];
        hidokpalu::calls::check_image(image, &mut record);
        Verdict::of_record(&record)
    }
}

#[cfg(not(feature = "proved"))]
mod linked {
    pub use reference::checker::check as judge;

    pub const JUDGE: &str = super::INDEPENDENT;
    pub const KIT: Option<&str> = None;
}

/// The verdict on an image.
pub use linked::judge;
pub use linked::JUDGE;
/// What `rt version` said when the archive of the proved checker was linked; none where the independent one judges.
pub use linked::KIT;
