//! The kinds of a request.

pub const ADD: u32 = 1;
pub const REMOVE_ZONE: u32 = 2;
pub const CPU_INSERT: u32 = 3;
pub const CPU_REMOVE: u32 = 4;
pub const IOMMU_INSERT: u32 = 5;
pub const IOMMU_REMOVE: u32 = 6;
