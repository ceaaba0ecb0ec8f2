//! The static library's exported calls, through the binding's declarations: safe wrappers
//! that are an implementation of `Calls`. They keep the C shape, number and `out`, because
//! what a refusal leaves in `out` is compared too; `tests/binding.rs` compares the binding's
//! own wrappers.
//!
//! The calls of a layer stand behind that layer's feature.

use crate::calls::{Calls, Layer};
#[cfg(feature = "vec")]
use crate::calls::VecInput;
use rvf::sys::*;

/// The linked library. Each wrapper hands over slices that live through the call, and
/// the library keeps no pointer; that is all that makes the calls safe.
pub struct Library;

impl Calls for Library {
    fn name(&self) -> &'static str {
        "library"
    }

    fn has(&self, layer: Layer) -> bool {
        match layer {
            Layer::Leaves => true,
            Layer::Vec => cfg!(feature = "vec"),
            Layer::Open => cfg!(feature = "open"),
            Layer::Reading => cfg!(feature = "reading"),
            Layer::Append => cfg!(feature = "append"),
            Layer::List => cfg!(feature = "list"),
            Layer::Compact => cfg!(feature = "compact"),
        }
    }

    #[inline(always)]
    fn crc32c(&self, data: &[u8]) -> u32 {
        unsafe { rvf_crc32c(data.as_ptr(), data.len()) }
    }

    #[inline(always)]
    fn varint_read(&self, data: &[u8], out: &mut [u64; 2]) -> u32 {
        unsafe { rvf_varint_read(data.as_ptr(), data.len(), out) }
    }

    #[inline(always)]
    fn varint_write(&self, buffer: &mut [u8], value: u64, out: &mut [u64; 1]) -> u32 {
        unsafe { rvf_varint_write(buffer.as_mut_ptr(), buffer.len(), value, out) }
    }

    fn idmap_read(&self, data: &[u8], count: u64, ids: &mut [u64], out: &mut [u64; 1]) -> u32 {
        unsafe { rvf_idmap_read(data.as_ptr(), data.len(), count, ids.as_mut_ptr(), ids.len(), out) }
    }

    fn idmap_write(&self, buffer: &mut [u8], ids: &[u64], encoding: u64, interval: u64, out: &mut [u64; 1]) -> u32 {
        let (at, room) = (buffer.as_mut_ptr(), buffer.len());
        unsafe { rvf_idmap_write(at, room, ids.as_ptr(), ids.len(), encoding, interval, out) }
    }

    #[cfg(feature = "vec")]
    fn vec_check(&self, payload: &[u8]) -> u32 {
        unsafe { rvf_vec_check(payload.as_ptr(), payload.len()) }
    }

    #[cfg(feature = "vec")]
    fn vec_read(&self, payload: &[u8], id: u64, buffer: &mut [u8], out: &mut [u64; 3]) -> u32 {
        let (at, room) = (buffer.as_mut_ptr(), buffer.len());
        unsafe { rvf_vec_read(payload.as_ptr(), payload.len(), id, at, room, out) }
    }

    #[cfg(feature = "vec")]
    fn vec_write(&self, buffer: &mut [u8], input: &VecInput, out: &mut [u64; 1]) -> u32 {
        let VecInput { ids, columns, dim, dtype, tier, encoding, interval } = input;
        unsafe {
            rvf_vec_write(
                buffer.as_mut_ptr(),
                buffer.len(),
                ids.as_ptr(),
                ids.len(),
                columns.as_ptr(),
                columns.len(),
                *dim,
                *dtype,
                *tier,
                *encoding,
                *interval,
                out,
            )
        }
    }

    #[cfg(feature = "open")]
    fn open(&self, file: &[u8], out: &mut [u64; 5]) -> u32 {
        unsafe { rvf_open(file.as_ptr(), file.len(), out) }
    }

    #[cfg(feature = "open")]
    fn entry(&self, file: &[u8], index: u64, out: &mut [u64; 8]) -> u32 {
        unsafe { rvf_entry(file.as_ptr(), file.len(), index, out) }
    }

    #[cfg(feature = "reading")]
    fn payload(&self, file: &[u8], id: u64, out: &mut [u64; 2]) -> u32 {
        unsafe { rvf_payload(file.as_ptr(), file.len(), id, out) }
    }

    #[cfg(feature = "reading")]
    fn vector(&self, file: &[u8], id: u64, buffer: &mut [u8], out: &mut [u64; 3]) -> u32 {
        unsafe { rvf_vector(file.as_ptr(), file.len(), id, buffer.as_mut_ptr(), buffer.len(), out) }
    }

    #[cfg(feature = "reading")]
    fn component(&self, file: &[u8], id: u64, index: u64, out: &mut [u64; 2]) -> u32 {
        unsafe { rvf_component(file.as_ptr(), file.len(), id, index, out) }
    }

    #[cfg(feature = "append")]
    fn append(&self, buffer: &mut [u8], n: u64, batch: &[u8], retire: &[u64], time: u64, out: &mut [u64; 3]) -> u32 {
        let (at, room) = (buffer.as_mut_ptr(), buffer.len());
        unsafe {
            rvf_append(at, room, n, batch.as_ptr(), batch.len(), retire.as_ptr(), retire.len(), time, out)
        }
    }

    #[cfg(feature = "list")]
    fn list(&self, file: &[u8], buffer: &mut [u8], out: &mut [u64; 1]) -> u32 {
        unsafe { rvf_list(file.as_ptr(), file.len(), buffer.as_mut_ptr(), buffer.len(), out) }
    }

    #[cfg(feature = "compact")]
    fn compact(&self, file: &[u8], buffer: &mut [u8], out: &mut [u64; 3]) -> u32 {
        unsafe { rvf_compact(file.as_ptr(), file.len(), buffer.as_mut_ptr(), buffer.len(), out) }
    }
}
