//! The twin of a frame: the same but for bit 28, which nodes and maps ignore (A.5).

use crate::command::Command;
use crate::frame::{Frame, ELEVEN_BIT};
use crate::header::RESERVED_BIT;

/// The frame with bit 28 turned. An eleven-bit frame has no such bit and is its own twin.
pub fn twin(frame: &Frame) -> Frame {
    let turned = if frame.kind == ELEVEN_BIT { 0 } else { RESERVED_BIT };
    Frame { header: frame.header ^ turned, ..*frame }
}

/// The command with the twin of its foreign frame, if it has one.
pub fn twin_command(command: &Command) -> Command {
    match command {
        Command::Foreign { frame } => Command::Foreign { frame: twin(frame) },
        other => *other,
    }
}
