//! Stand-in for vendor defined messages: the names that the parser of data messages mentions. No run makes such a message.

/// The kind of a vendor defined message.
pub enum VdmType {
    Unstructured,
    Structured,
}

/// The header word, of either kind.
pub struct VdmHeaderRaw(pub u32);

impl VdmHeaderRaw {
    /// The kind, from bit 15 of the word.
    pub fn vdm_type(&self) -> VdmType {
        match self.0 >> 15 & 1 {
            0 => VdmType::Unstructured,
            _ => VdmType::Structured,
        }
    }
}

/// The header word of an unstructured message.
#[derive(Debug, Clone)]
pub struct VdmHeaderUnstructured(pub u32);

/// The header word of a structured message.
#[derive(Debug, Clone)]
pub struct VdmHeaderStructured(pub u32);

/// A header by its kind.
#[derive(Debug, Clone)]
pub enum VdmHeader {
    Unstructured(VdmHeaderUnstructured),
    Structured(VdmHeaderStructured),
}
