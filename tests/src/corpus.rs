//! The structure files of data/, held in the program.

/// A file with its name.
pub type Named = (&'static str, &'static [u8]);

macro_rules! files {
    ($folder:literal, $($name:literal),*) => {
        &[$(($name, include_bytes!(concat!("../data/", $folder, "/", $name, ".mmtf")))),*]
    };
}

/// As published, with 64-bit floats: each refused with 3.
pub const PUBLISHED: &[Named] = files!(
    "published",
    "4QXX",
    "3NJW",
    "1BNA",
    "173D",
    "1CAG",
    "4CUP-0.2",
    "1AUY",
    "1IGT"
);

/// With 32-bit floats instead, smallest first: each accepted as a container.
pub const DERIVED: &[Named] =
    files!("derived", "4QXX", "3NJW", "1BNA", "173D", "1CAG", "4CUP-0.2", "1AUY", "1IGT", "4V5A");

/// The derived file of that name.
pub fn derived(name: &str) -> &'static [u8] {
    DERIVED
        .iter()
        .find(|(n, _)| *n == name)
        .expect("a file of the corpus")
        .1
}
