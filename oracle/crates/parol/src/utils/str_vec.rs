//! Stand-in for `utils/str_vec.rs`: nothing of it is used here.
