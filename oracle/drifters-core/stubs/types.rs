//! Not published; the names that the prelude of lib.rs re-exports, and nothing behind them.

/// Not published.
pub struct Attitude;
/// Not published.
pub struct GnssFix;
/// Not published.
pub struct ImuError;
/// Not published.
pub struct ImuNoise;
/// Not published.
pub struct ImuSample;
/// Not published.
pub struct NavState;
/// Not published.
pub struct Pva;
