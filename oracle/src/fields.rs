//! A gate's settings, under the names the source looks for. The save format
//! they come from lies outside the source.

#[derive(Clone, Debug)]
pub enum BrdbValue {
    Bool(bool),
    I64(i64),
    F64(f64),
    String(String),
}

#[derive(Clone, Debug, Default)]
pub struct BrdbStruct(pub Vec<(&'static str, BrdbValue)>);

impl BrdbStruct {
    pub fn get(&self, name: &str) -> Option<&BrdbValue> {
        self.0.iter().find(|(n, _)| *n == name).map(|(_, v)| v)
    }
}
