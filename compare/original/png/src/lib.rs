//! Stands in for the image crate, which the canvas names and never calls.
