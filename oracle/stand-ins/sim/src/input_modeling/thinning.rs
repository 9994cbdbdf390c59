//! Stand-in. Named by the generator, which is not carried over.

use serde::{Deserialize, Serialize};

#[derive(Debug, Clone, Serialize, Deserialize)]
pub enum Thinning {
    Lacking,
}
