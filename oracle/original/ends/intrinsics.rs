
// Appended at build time: the stub stands in for the crate of that name.
use super::walrus;
