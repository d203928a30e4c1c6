//! Whether a customer has service.
use std::fmt;

#[derive(Clone, Copy, Debug, PartialEq, Eq)]
pub enum Service {
    On,
    Off,
    Closed,
}

impl fmt::Display for Service {
    fn fmt(&self, out: &mut fmt::Formatter) -> fmt::Result {
        out.write_str(match self {
            Service::On => "on",
            Service::Off => "off",
            Service::Closed => "closed",
        })
    }
}
