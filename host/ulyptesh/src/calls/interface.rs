//! The number of the C interface.

/// The number of the interface that this crate is written for.
pub const ABI: u32 = 5;

unsafe extern "C" {
    safe fn ulyptesh_abi() -> u32;
}

/// The number of the interface that the library has.
pub fn abi() -> u32 {
    ulyptesh_abi()
}

#[cfg(test)]
mod tests {
    #[test]
    fn the_library_has_this_interface() {
        assert_eq!(super::abi(), super::ABI);
    }
}
