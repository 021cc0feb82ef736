//! Stand-in for the signature domains that the four files name.

#[derive(Debug, Clone, Copy)]
pub enum DomainType {
    BeaconProposer,
    BeaconAttester,
    SyncCommittee,
}

impl DomainType {
    pub fn as_bytes(&self) -> [u8; 4] {
        match self {
            Self::BeaconProposer => [0, 0, 0, 0],
            Self::BeaconAttester => [1, 0, 0, 0],
            Self::SyncCommittee => [7, 0, 0, 0],
        }
    }
}
