// What uncolored.rs names of the rest of the original, so that it compiles: Side, and what the debug contractor does not run.

// As lib.rs has it.
#[derive(Debug, Clone, Copy, PartialEq, Eq, Hash)]
pub enum Side {
    Front = 0,
    Back = 1,
}

impl Side {
    pub const fn inverse(self) -> Self {
        match self {
            Self::Front => Self::Back,
            Self::Back => Self::Front,
        }
    }
}

pub mod xxh3 {
    pub fn xxh3_64(_: &[u8]) -> u64 {
        unreachable!()
    }
}

macro_rules! error {
    ($name:ident) => {
        #[derive(Debug)]
        pub struct $name;

        impl std::fmt::Display for $name {
            fn fmt(&self, _: &mut std::fmt::Formatter<'_>) -> std::fmt::Result {
                unreachable!()
            }
        }
    };
}

pub mod buckets {
    error!(BucketError);

    pub struct Header {
        pub k: u16,
        pub minimizer_len: u16,
        pub colored: bool,
    }

    pub struct Record {
        pub label: Vec<u8>,
    }

    pub struct Reader;

    impl Reader {
        pub fn header(&self) -> Header {
            unreachable!()
        }

        pub fn next_record(&mut self) -> Result<Option<Record>, BucketError> {
            unreachable!()
        }
    }

    pub struct BucketStore;

    impl BucketStore {
        pub fn open_dir(_: &std::path::Path) -> Result<(Self, Vec<()>), BucketError> {
            unreachable!()
        }

        pub fn reader(&self, _: &()) -> Result<Reader, BucketError> {
            unreachable!()
        }
    }
}

pub mod subgraph {
    error!(LocalSubgraphError);
}

pub mod intermediates {
    pub fn apply_params(_: &crate::params::BuildParams) {
        unreachable!()
    }
}

pub mod params {
    pub struct BuildParams {
        pub color: bool,
        pub k: u16,
        pub minimizer_len: u16,
        pub output_prefix: String,
        pub work_dir: String,
    }

    impl BuildParams {
        pub fn cutoff(&self) -> u32 {
            unreachable!()
        }

        pub fn local_workers(&self) -> usize {
            unreachable!()
        }

        pub fn post_local_workers(&self) -> usize {
            unreachable!()
        }
    }
}

pub mod discontinuity {
    use std::path::{Path, PathBuf};

    error!(DiscontinuityInputError);
    error!(SerialCollationError);
    error!(SerialEdgeMatrixError);

    pub struct InputStats {
        pub input_buckets: usize,
        pub weak_superkmers: u64,
        pub local_unitigs: u64,
        pub discontinuity_exits: u64,
    }

    pub struct Inputs {
        pub stats: InputStats,
    }

    pub struct CollationStats {
        pub emitted_unitigs: u64,
        pub emitted_bases: u64,
    }

    pub struct SerialUncoloredCollator;

    impl SerialUncoloredCollator {
        pub fn collate_external_stitched_to_fasta_with_threads_in_dir(
            _: &mut Inputs,
            _: usize,
            _: &Path,
            _: &Path,
            _: &Path,
        ) -> Result<CollationStats, SerialCollationError> {
            unreachable!()
        }
    }

    pub fn emit_uncolored_external_discontinuity_inputs_with_threads_in_dir<const K: usize>(
        _: &Path,
        _: u32,
        _: usize,
        _: &Path,
        _: Option<&Path>,
    ) -> Result<Inputs, DiscontinuityInputError> {
        unreachable!()
    }

    pub fn report_process_memory(_: &str) {
        unreachable!()
    }

    pub fn trim_process_allocations() {
        unreachable!()
    }

    pub fn spawn_background_dir_removal(_: PathBuf) -> std::thread::JoinHandle<()> {
        unreachable!()
    }
}
