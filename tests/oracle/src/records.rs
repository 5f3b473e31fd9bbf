//! The records that the commands enter, as plain values.

use std::collections::BTreeMap;

#[derive(Clone, Debug, PartialEq)]
pub struct Domain {
    pub name: String,
    pub elements: Vec<String>,
    pub power: Option<String>,
    pub ground: Option<String>,
    pub scope: String,
}

#[derive(Clone, Debug, PartialEq)]
pub struct Switch {
    pub name: String,
    pub domain: Option<String>,
    pub input: (String, String),
    pub output: (String, String),
    pub controls: Vec<(String, String)>,
    pub on_states: Vec<(String, String, String)>,
    pub off_states: Vec<(String, String)>,
}

#[derive(Clone, Debug, PartialEq)]
pub struct Isolation {
    pub name: String,
    pub domain: String,
    pub applies_to: Option<String>,
    pub elements: Vec<String>,
    pub clamp: String,
    pub signal: Option<String>,
    pub sense: String,
    pub power: Option<String>,
    pub ground: Option<String>,
}

#[derive(Clone, Debug, PartialEq)]
pub struct Retention {
    pub name: String,
    pub domain: String,
    pub elements: Vec<String>,
}

#[derive(Clone, Debug, PartialEq)]
pub struct Table {
    pub name: String,
    pub supplies: Vec<String>,
    pub states: Vec<(String, Vec<String>)>,
}

#[derive(Clone, Debug, Default, PartialEq)]
pub struct Records {
    pub design_top: Option<String>,
    pub scope: String,
    pub domains: Vec<Domain>,
    pub nets: Vec<String>,
    pub ports: Vec<(String, String)>,
    /// Net of a supply port, from `connect_supply_net`.
    pub connections: BTreeMap<String, String>,
    pub switches: Vec<Switch>,
    pub isolations: Vec<Isolation>,
    pub retentions: Vec<Retention>,
    /// Name and domain.
    pub shifters: Vec<(String, String)>,
    pub port_states: Vec<(String, Vec<(String, String)>)>,
    pub tables: Vec<Table>,
    pub warnings: Vec<String>,
}
