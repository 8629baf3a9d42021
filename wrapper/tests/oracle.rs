//! The comparison at scale with the given Rust, where it was built: tools/wrapper_test.sh builds it and names its folder in
//! TOGASIPE_ORACLE_DIR.

#[cfg(togasipe_oracle)]
extern crate oracle;
#[cfg(togasipe_oracle)]
extern crate p3_field;

#[cfg(togasipe_oracle)]
mod comparison;

#[cfg(not(togasipe_oracle))]
#[test]
fn left_out() {
    println!("The given Rust was not built (TOGASIPE_ORACLE_DIR is not set), so nothing was compared with it.");
}
