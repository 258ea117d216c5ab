//! The proved code, as it is built, against this package: the same answers on the same inputs.

#[cfg(not(exported))]
compile_error!(
    "a library in target/staticlib is missing: run `compare/run` first"
);

mod carrying;
mod judging;
mod proved;
mod reading;
mod refining;
mod working;
mod writing;
