
// Appended at build time: the passes are counted by this port only, so one more walk over the module's own steps counts them.
pub fn liveness_passes(function: &Function, semantics: &ProgramSemantics) -> usize {
    let mut live_in: BTreeMap<BlockId, UnitSet> = BTreeMap::new();
    let mut live_out: BTreeMap<BlockId, UnitSet> = BTreeMap::new();
    for block in &function.blocks {
        live_in.insert(block.id, UnitSet::new());
        live_out.insert(block.id, UnitSet::new());
    }
    for pass in 1.. {
        let before = (live_in.clone(), live_out.clone());
        for block in function.blocks.iter().rev() {
            let targets = successors(&block.terminator.kind);
            let out: UnitSet = targets.iter().filter_map(|id| live_in.get(id)).flatten().copied().collect();
            let mut live = out.clone();
            let uses = terminator_unit_uses(&block.terminator.kind, function, semantics);
            apply_transfer(&mut live, &UnitSet::new(), &uses);
            for instruction in block.instructions.iter().rev() {
                let definitions = instruction_unit_definitions(&instruction.kind, semantics);
                let uses = instruction_unit_uses(&instruction.kind, semantics);
                apply_transfer(&mut live, &definitions, &uses);
            }
            live_out.insert(block.id, out);
            live_in.insert(block.id, live);
        }
        if before == (live_in.clone(), live_out.clone()) {
            return pass;
        }
    }
    unreachable!("the sets only grow, so some pass changes nothing")
}
