//! The proved store, through its wrapper, beside the second implementation: the same calls on both, each with memory
//! of its own. Every answer, every byte of the area and of the work buffer, and the record must be the same; cells
//! of the index may be at other places, and are held to the index rule.
//!
//! [`vectors`] holds both to answers that neither of them gave: those of an independent model.

pub mod guarded;
pub mod pair;
pub mod translate;
pub mod vectors;

/// A difference between the two.
pub type Fault = String;

/// Fails unless the two are equal.
#[macro_export]
macro_rules! same {
    ($what:expr, $proved:expr, $reference:expr) => {{
        let (proved, reference) = (&$proved, &$reference);
        if proved != reference {
            return Err(format!(
                "{}: {:?}, and the reference {:?}",
                $what, proved, reference
            ));
        }
    }};
}
