//! Stand-in. Not carried over, and used by nothing here.
