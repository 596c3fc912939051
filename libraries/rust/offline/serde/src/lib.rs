//! Nothing: it stands for serde where that isn't compiled.
