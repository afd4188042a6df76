//! Not published; nothing compared uses it.
