
// Appended at build time: the allocator is private and is consumed by its run, so its end is where the slots can be counted.
thread_local! {
    static OPENED: std::cell::Cell<usize> = const { std::cell::Cell::new(0) };
}

impl Drop for Allocator {
    fn drop(&mut self) {
        OPENED.set(self.slots.len());
    }
}

/// The placements in storage order and the slots opened, or the refusal's number and value.
pub fn place(program: &VirtualProgram) -> Result<(Vec<PhysicalPlacement>, usize), (u32, usize)> {
    let placed = Allocator::new(program).allocate(program).map_err(|error| match error {
        AllocationError::ApplicationRamExhausted { bytes } => (8, bytes),
        AllocationError::WorkRamExhausted { bytes } => (9, bytes),
        AllocationError::NoAllowedPlacement { storage } => (10, storage),
        AllocationError::InvalidFixedPlacement { storage } => (11, storage),
        AllocationError::FixedPlacementConflict { storage } => (12, storage),
        AllocationError::InvalidProgram(message) => unreachable!("nothing validates here: {message}"),
    })?;
    let placements = placed.storages.iter().map(|storage| storage.placement).collect();
    Ok((placements, OPENED.get()))
}
