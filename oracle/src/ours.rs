//! The port's side. This is the one place that declares what is linked: the C functions of include/elbomavund.h, in the archive
//! libreader.a (oracle/lib builds it). tests/declarations.rs holds these declarations to the header, and every word of what the
//! functions return and write.
//!
//! Without the feature `port` nothing is linked, and the model (model.rs) stands in for `read`.

use crate::model::Four;

#[cfg(feature = "port")]
pub const NAME: &str = "the port (elbomavund_read)";
#[cfg(not(feature = "port"))]
pub const NAME: &str = "the model of docs/RULES.md; the port is NOT in this comparison";

#[cfg(feature = "port")]
#[link(name = "reader", kind = "static")]
unsafe extern "C" {
    pub fn elbomavund_read(
        rule: u32,
        buffer: *const u8,
        length: usize,
        table: *mut u32,
        table_length: usize,
        out: *mut u64,
        out_length: usize,
    ) -> u32;
    pub fn elbomavund_view(
        length: usize,
        table: *const u32,
        table_length: usize,
        node: usize,
        out: *mut u64,
        out_length: usize,
    ) -> u32;
}

/// A reading; what is returned, with out as it is after it.
#[cfg(feature = "port")]
pub fn read_into(rule: u32, s: &[u8], table: &mut [u32], out: &mut [u64]) -> u32 {
    // SAFETY: the lengths are those of the slices, and no two of them overlap.
    unsafe { elbomavund_read(rule, s.as_ptr(), s.len(), table.as_mut_ptr(), table.len(), out.as_mut_ptr(), out.len()) }
}

/// A view of a node; what is returned, with out as it is after it.
#[cfg(feature = "port")]
pub fn view_into(length: usize, table: &[u32], node: usize, out: &mut [u64]) -> u32 {
    // SAFETY: as above.
    unsafe { elbomavund_view(length, table.as_ptr(), table.len(), node, out.as_mut_ptr(), out.len()) }
}

#[cfg(feature = "port")]
pub fn read(rule: u32, s: &[u8], table: &mut [u32]) -> Four {
    let mut out = [u64::MAX; 4];
    let answer = read_into(rule, s, table, &mut out);
    assert_eq!(answer as u64, out[0], "elbomavund_read returns another answer than it writes");
    let [answer, taken, nodes, wanted] = out.map(|word| u32::try_from(word).expect("a number of 32 bits"));
    Four { answer, taken, nodes, wanted }
}

#[cfg(not(feature = "port"))]
pub fn read(rule: u32, s: &[u8], table: &mut [u32]) -> Four {
    crate::model::read(rule, s, table)
}
