//! The bytes of an image as fields: 32 bits each, little-endian.

pub(crate) const FIELD_BYTES: usize = 4;

/// How many bytes the header has: nine fields.
pub(crate) const HEADER_BYTES: usize = 9 * FIELD_BYTES;

/// The fields in these bytes, if the bytes are exactly that many fields.
pub(crate) fn read_fields<const FIELDS: usize>(bytes: &[u8]) -> Option<[u32; FIELDS]> {
    let (fields, rest) = bytes.as_chunks::<FIELD_BYTES>();
    let fields: [[u8; FIELD_BYTES]; FIELDS] = fields.try_into().ok()?;
    rest.is_empty().then(|| fields.map(u32::from_le_bytes))
}

/// Writes fields to the start of these bytes, which are long enough.
pub(crate) fn write_fields(bytes: &mut [u8], fields: &[u32]) {
    let (chunks, _) = bytes.as_chunks_mut::<FIELD_BYTES>();
    for (chunk, field) in chunks[..fields.len()].iter_mut().zip(fields) {
        *chunk = field.to_le_bytes();
    }
}
