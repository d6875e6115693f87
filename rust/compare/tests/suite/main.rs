//! The proved store beside the reference. The tests print how much they ran.

mod conversion;
mod damaged_images;
mod expected_versions;
mod full_stores;
mod images_in_use;
mod inspected;
mod joining;
mod not_genuine;
mod positions;
mod random_histories;
mod refused_calls;
mod replay_program;
mod rig;
mod short_histories;
mod switching;
mod two_owners;
mod vectors;
mod vectors_changed;
mod vectors_editions;
mod vectors_faulty;
mod vectors_reader;
