// Not published; the modules that are, and what keeps a call's rounds and passes.

pub mod differential;
pub mod passes;
pub mod record;
pub mod rinex;
pub mod robust;
pub mod smooth;
pub mod tdcp;
pub mod wls;
