
// Appended at build time: a file may have an address without bytes, which the constructor does not make.
impl Address {
    pub fn of_any_bytes(bytes: Vec<ByteOperand>) -> Self {
        Self {
            space: AddressSpace::MainMemory,
            bytes,
            offset: 0,
        }
    }
}
