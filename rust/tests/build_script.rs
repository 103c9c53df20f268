//! build.rs in every environment: it links a library, or says in words what to do.
//!
//! `rt` is a stand-in here, a script in a folder of the test's own, and the libraries are small
//! ones that `cc` and `ar` make.

#[path = "build_script/library.rs"]
mod library;
#[path = "build_script/place.rs"]
mod place;
#[path = "build_script/proving.rs"]
mod proving;
#[path = "build_script/terminal.rs"]
mod terminal;
#[path = "build_script/version.rs"]
mod version;
