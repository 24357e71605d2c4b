//! Logs of one make.

use crate::scenario::Scenario;

pub struct Family {
    pub name: String,
    pub logs: Vec<Scenario>,
}
