//! Bytes as hexadecimal digits, by the crate `hex`.

use super::alloc::AllocError;
use super::alloc::Global;
use super::text::String;
use super::vec::Vec;
use thiserror::Error;

/// Why a text is no hexadecimal digits, two a byte.
#[derive(Clone, Copy, Debug, PartialEq, Error)]
pub enum FromHexError {
    /// It is none, or does not fit.
    #[error("{0}")]
    Refused(hex::FromHexError),
    /// A request for memory was refused.
    #[error("out of memory")]
    OutOfMemory,
}

/// The bytes that a text says.
pub fn decode<T: AsRef<[u8]>>(alloc: Global, text: T) -> Result<Vec<u8>, FromHexError> {
    let len = text.as_ref().len() / 2;
    let mut bytes = Vec::with_capacity(alloc, len).map_err(|_| FromHexError::OutOfMemory)?;
    bytes.as_std().resize(len, 0);
    hex::decode_to_slice(text, bytes.as_mut_slice()).map_err(FromHexError::Refused)?;
    Ok(bytes)
}

/// The digits of bytes.
pub fn encode<T: AsRef<[u8]>>(alloc: Global, bytes: T) -> Result<String, AllocError> {
    let mut text = String::new(alloc);
    for byte in bytes.as_ref() {
        let mut pair = [0; 2];
        let _ = hex::encode_to_slice([*byte], &mut pair);
        for digit in pair {
            text.push_str(char::from(digit).encode_utf8(&mut [0; 4]))?;
        }
    }
    Ok(text)
}

/// Writes the digits of bytes to a slice that is twice as long.
pub fn encode_to_slice<T: AsRef<[u8]>>(bytes: T, out: &mut [u8]) -> Result<(), FromHexError> {
    hex::encode_to_slice(bytes, out).map_err(FromHexError::Refused)
}
