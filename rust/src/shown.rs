//! How `Debug` shows versions: in hexadecimal, as the RFCs write them.

use std::fmt;

/// A version: 0x6b3343cf.
pub(crate) struct Version(pub(crate) u32);

impl fmt::Debug for Version {
    fn fmt(&self, f: &mut fmt::Formatter<'_>) -> fmt::Result {
        write!(f, "{:#010x}", self.0)
    }
}

/// Versions in their order.
pub(crate) struct List<'a>(pub(crate) &'a [u32]);

impl fmt::Debug for List<'_> {
    fn fmt(&self, f: &mut fmt::Formatter<'_>) -> fmt::Result {
        let versions = self.0.iter().copied();
        f.debug_list().entries(versions.map(Version)).finish()
    }
}

/// Versions as they lie on the wire. Bytes left over, which are no version, have fewer digits.
pub(crate) struct OnTheWire<'a>(pub(crate) &'a [u8]);

impl fmt::Debug for OnTheWire<'_> {
    fn fmt(&self, f: &mut fmt::Formatter<'_>) -> fmt::Result {
        f.debug_list().entries(self.0.chunks(4).map(Four)).finish()
    }
}

struct Four<'a>(&'a [u8]);

impl fmt::Debug for Four<'_> {
    fn fmt(&self, f: &mut fmt::Formatter<'_>) -> fmt::Result {
        f.write_str("0x")?;
        self.0.iter().try_for_each(|byte| write!(f, "{:02x}", byte))
    }
}
