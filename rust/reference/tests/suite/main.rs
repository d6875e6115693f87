//! Tests of the reference store against the cases, rules and demands of document 01.

mod cases;
mod conversion;
mod damaged_images;
mod dump;
mod editions;
mod fnv;
mod full_stores;
mod index_rule;
mod joining;
mod naive;
mod next_store;
mod not_genuine;
mod plausible_and_wrong;
mod positions;
mod present_bytes;
mod random_histories;
mod refusals;
mod rig;
mod scanning;
mod short_histories;
mod stored_images;
mod stored_output;
mod switching;
