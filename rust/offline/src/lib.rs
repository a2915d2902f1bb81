//! Not serde, but what cargo finds in its place where this package is built by itself.

compile_error!("the feature `serde` is built and tested by the package with-serde");
