//! Stands in for two types that only session commands use.

pub struct EndpointName(String);
pub struct ProductInstanceId(String);

#[allow(dead_code)]
impl EndpointName {
    pub fn as_str(&self) -> &str {
        &self.0
    }
}

#[allow(dead_code)]
impl ProductInstanceId {
    pub fn as_str(&self) -> &str {
        &self.0
    }
}
