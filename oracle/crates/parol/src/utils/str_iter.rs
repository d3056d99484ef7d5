//! Stand-in for `utils/str_iter.rs`: nothing of it is used here.
