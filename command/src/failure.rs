//! What keeps a command from answering: a message, and the exit that goes with it.

/// An empty message says that there is nowhere to say it.
pub struct Failure {
    pub exit: u8,
    pub message: String,
}

/// Wrong usage, or a file that can't be read.
pub fn unusable(message: impl Into<String>) -> Failure {
    Failure { exit: 2, message: message.into() }
}

/// Anything else.
pub fn unanswered(message: impl Into<String>) -> Failure {
    Failure { exit: 1, message: message.into() }
}
