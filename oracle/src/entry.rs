//! The proved library, linked when the build names one. What it does not have yet is absent here.
//!
//! All functions answer a refusal's number times 2 to the 32 plus its value, where number 0 is no refusal, and write the
//! lent words. The slices that are handed over are valid for their lengths and do not overlap, which is all that the
//! library asks.

/// `check_file`: the number of units.
pub type Checker = fn(&[u8], &mut [u32]) -> u64;
/// File, place, units and row: 0 where the row was filled. `live_of` takes a function number and the live sets, and gives
/// the passes.
pub type Query = fn(&[u8], usize, &mut [u32], &mut [u64]) -> u64;
/// File, place and units: 1 for yes, 0 for no.
pub type Effect = fn(&[u8], usize, &mut [u32]) -> u64;
/// File, units, live sets, graph and copies: the passes summed over the functions.
pub type Graph = fn(&[u8], &mut [u32], &mut [u64], &mut [u64], &mut [u64]) -> u64;
/// File, units, live sets, graph, copies and the result's bytes: passes, slots and storages in one number.
pub type Placer = fn(&[u8], &mut [u32], &mut [u64], &mut [u64], &mut [u64], &mut [u8]) -> u64;

/// The names of the four queries for sets, in the order of `Library::sets`.
pub const SET_NAMES: [&str; 4] = ["reads_at", "writes_at", "storage_reads_at", "storage_writes_at"];

/// The functions that are there.
#[derive(Clone, Copy, Default)]
pub struct Library {
    pub check: Option<Checker>,
    pub sets: [Option<Query>; 4],
    pub effect: Option<Effect>,
    pub live: Option<Query>,
    pub graph: Option<Graph>,
    pub place: Option<Placer>,
}

impl Library {
    /// How many functions the analysis has, the checker and the placer left out.
    pub const ANALYSIS_FUNCTIONS: usize = SET_NAMES.len() + 3;

    /// What the build linked.
    pub fn linked() -> Self {
        Self {
            check: check_file(),
            sets: [reads_at(), writes_at(), storage_reads_at(), storage_writes_at()],
            effect: effect_at(),
            live: live_of(),
            graph: graph_of(),
            place: place_file(),
        }
    }

    /// The names of the functions of the analysis that are not there.
    pub fn missing(&self) -> Vec<&'static str> {
        let sets = SET_NAMES.into_iter().zip(self.sets.map(|set| set.is_some()));
        let others = [
            ("effect_at", self.effect.is_some()),
            ("live_of", self.live.is_some()),
            ("graph_of", self.graph.is_some()),
        ];
        let all = sets.chain(others);
        all.filter(|(_, present)| !present).map(|(name, _)| name).collect()
    }
}

/// Gives the linked function of this name, or nothing where the library has none.
macro_rules! linked {
    ($present:ident, $name:ident, $kind:ty, $linked:block) => {
        #[cfg($present)]
        fn $name() -> Option<$kind> $linked

        #[cfg(not($present))]
        fn $name() -> Option<$kind> {
            None
        }
    };
}

/// The same for a function of a file, a number, the units and one more buffer.
macro_rules! linked_query {
    ($present:ident, $name:ident) => {
        linked!($present, $name, Query, {
            extern "C" {
                fn $name(
                    file: *const u8,
                    length: usize,
                    number: usize,
                    units: *mut u32,
                    units_length: usize,
                    words: *mut u64,
                    words_length: usize,
                ) -> u64;
            }
            Some(|file, number, units, words| unsafe {
                let (file, length) = (file.as_ptr(), file.len());
                let (units, units_length) = (units.as_mut_ptr(), units.len());
                $name(
                    file,
                    length,
                    number,
                    units,
                    units_length,
                    words.as_mut_ptr(),
                    words.len(),
                )
            })
        });
    };
}

linked_query!(entry_reads_at, reads_at);
linked_query!(entry_writes_at, writes_at);
linked_query!(entry_storage_reads_at, storage_reads_at);
linked_query!(entry_storage_writes_at, storage_writes_at);
linked_query!(entry_live_of, live_of);

linked!(entry_check_file, check_file, Checker, {
    extern "C" {
        fn check_file(file: *const u8, length: usize, units: *mut u32, units_length: usize) -> u64;
    }
    Some(|file, units| unsafe { check_file(file.as_ptr(), file.len(), units.as_mut_ptr(), units.len()) })
});

linked!(entry_effect_at, effect_at, Effect, {
    extern "C" {
        fn effect_at(file: *const u8, length: usize, place: usize, units: *mut u32, units_length: usize) -> u64;
    }
    Some(|file, place, units| unsafe { effect_at(file.as_ptr(), file.len(), place, units.as_mut_ptr(), units.len()) })
});

linked!(entry_graph_of, graph_of, Graph, {
    extern "C" {
        fn graph_of(
            file: *const u8,
            length: usize,
            units: *mut u32,
            units_length: usize,
            live: *mut u64,
            live_length: usize,
            graph: *mut u64,
            graph_length: usize,
            copies: *mut u64,
            copies_length: usize,
        ) -> u64;
    }
    Some(|file, units, live, graph, copies| unsafe {
        let (file, length) = (file.as_ptr(), file.len());
        let (units, units_length) = (units.as_mut_ptr(), units.len());
        let (live, live_length) = (live.as_mut_ptr(), live.len());
        let (graph, graph_length) = (graph.as_mut_ptr(), graph.len());
        let (copies, copies_length) = (copies.as_mut_ptr(), copies.len());
        graph_of(
            file,
            length,
            units,
            units_length,
            live,
            live_length,
            graph,
            graph_length,
            copies,
            copies_length,
        )
    })
});

linked!(entry_place_file, place_file, Placer, {
    extern "C" {
        fn place_file(
            file: *const u8,
            length: usize,
            units: *mut u32,
            units_length: usize,
            live: *mut u64,
            live_length: usize,
            graph: *mut u64,
            graph_length: usize,
            copies: *mut u64,
            copies_length: usize,
            result: *mut u8,
            result_length: usize,
        ) -> u64;
    }
    Some(|file, units, live, graph, copies, result| unsafe {
        let (file, length) = (file.as_ptr(), file.len());
        let (units, units_length) = (units.as_mut_ptr(), units.len());
        let (live, live_length) = (live.as_mut_ptr(), live.len());
        let (graph, graph_length) = (graph.as_mut_ptr(), graph.len());
        let (copies, copies_length) = (copies.as_mut_ptr(), copies.len());
        let (result, result_length) = (result.as_mut_ptr(), result.len());
        place_file(
            file,
            length,
            units,
            units_length,
            live,
            live_length,
            graph,
            graph_length,
            copies,
            copies_length,
            result,
            result_length,
        )
    })
});
