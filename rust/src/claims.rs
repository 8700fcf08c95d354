//! The claims of a token that was accepted.

use std::fmt;

/// The processed payload of a token that was accepted (RFC 9901 section 7.1): a JSON object.
#[derive(Clone, Debug, PartialEq, Eq)]
pub struct Claims(pub(crate) String);

impl Claims {
    /// The claims as compact JSON.
    #[must_use]
    pub fn as_str(&self) -> &str {
        &self.0
    }

    /// The claims as compact JSON.
    #[must_use]
    pub fn into_string(self) -> String {
        self.0
    }

    /// The claims as a type of yours, or as a `serde_json::Value`.
    ///
    /// # Errors
    ///
    /// The claims do not fit the type.
    #[cfg(feature = "serde")]
    pub fn read<'a, T: serde::Deserialize<'a>>(&'a self) -> Result<T, serde_json::Error> {
        serde_json::from_str(&self.0)
    }
}

impl fmt::Display for Claims {
    fn fmt(&self, to: &mut fmt::Formatter<'_>) -> fmt::Result {
        to.write_str(&self.0)
    }
}

impl AsRef<str> for Claims {
    fn as_ref(&self) -> &str {
        &self.0
    }
}
