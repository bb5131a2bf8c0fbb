//! The files of the package are those that its sources make: `make package` writes them.

use script::package::difference;
use std::path::Path;

#[test]
fn files_are_those_of_their_sources() {
    let said = difference(Path::new(env!("CARGO_MANIFEST_DIR"))).expect("the sources are read");
    assert!(said.is_empty(), "`make package` has to run:\n{said}");
}
