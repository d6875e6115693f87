//! What the program `play` must write: its history on this reference, with a recovery after every store.

mod history;
mod player;

use std::io::{self, Write};

use player::Player;

fn main() -> io::Result<()> {
    let mut player = Player::new();
    for event in history::HISTORY {
        player.play(*event);
    }
    io::stdout().lock().write_all(player.text.as_bytes())
}
