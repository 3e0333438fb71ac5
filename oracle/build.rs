//! Finds the Rust's source and takes out of it, as text, what the oracle compiles.
//!
//! sweep.rs is compiled where it stands, unchanged. builder.rs and mod.rs need crates that are not
//! here, so the parts that the sweep stands on are cut out between two markers: lines of the source
//! itself. A marker that is not there, or is there twice, stops the build.

use std::path::{Path, PathBuf};
use std::{env, fs, process};

fn stop(message: &str) -> ! {
    eprintln!("oracle: {message}");
    process::exit(1)
}

/// A source file and its name in messages.
struct Source {
    name: String,
    text: String,
}

impl Source {
    fn read(folder: &Path, name: &str) -> Source {
        let path = folder.join(name);
        println!("cargo:rerun-if-changed={}", path.display());
        let text = fs::read_to_string(&path).unwrap_or_else(|e| {
            stop(&format!("cannot read {}: {e}. Set PHASTR_SRC to the folder that holds sweep.rs, builder.rs and mod.rs", path.display()))
        });
        Source { name: name.to_string(), text }
    }

    /// The place of a marker, which must stand in the file exactly once.
    fn find(&self, marker: &str) -> usize {
        let mut places = self.text.match_indices(marker);
        match (places.next(), places.next()) {
            (Some((at, _)), None) => at,
            (None, _) => stop(&format!(
                "{} has no text {marker:?}: this is not the source that the cuts were written for",
                self.name
            )),
            _ => stop(&format!(
                "{} has the text {marker:?} more than once: this is not the source that the cuts were written for",
                self.name
            )),
        }
    }

    /// The text from the marker `from`, included, to the marker `to`, left out.
    fn cut(&self, from: &str, to: &str) -> &str {
        let (begin, end) = (self.find(from), self.find(to));
        if end <= begin {
            stop(&format!("{}: {to:?} stands before {from:?}", self.name));
        }
        &self.text[begin..end]
    }
}

fn source_folder() -> PathBuf {
    println!("cargo:rerun-if-env-changed=PHASTR_SRC");
    match env::var_os("PHASTR_SRC") {
        Some(folder) => PathBuf::from(folder),
        None => Path::new(&env::var_os("CARGO_MANIFEST_DIR").unwrap())
            .join("../../shared/docs/src/src/func/phastr"),
    }
}

fn main() {
    println!("cargo:rerun-if-changed=build.rs");
    let folder = source_folder();
    let folder = folder.canonicalize().unwrap_or_else(|_| {
        stop(&format!("no source of the Rust at {}. Set PHASTR_SRC to the folder that holds sweep.rs, builder.rs and mod.rs", folder.display()))
    });
    let module = Source::read(&folder, "mod.rs");
    let builder = Source::read(&folder, "builder.rs");
    let sweep = Source::read(&folder, "sweep.rs");

    write("from_mod.rs", &from_mod(&module));
    write("from_builder.rs", &from_builder(&builder));
    write("from_sweep.rs", &from_sweep(&sweep));
    write("sweep_mod.rs", &format!("#[path = {:?}]\nmod sweep;\n", folder.join("sweep.rs")));
}

/// Products, constants and the signature of later levels.
fn from_mod(module: &Source) -> String {
    [
        module.cut(
            "/// Returns the most significant 64 bits of the 128-bit product",
            "/// Returns, in its lowest 16 bits, the field of `lo`",
        ),
        module.cut(
            "/// The scale of large levels",
            "/// The value combined with the seed of the function to obtain the seed of\n/// the second hash",
        ),
        module.cut(
            "/// The value combined with the second hash of a key to obtain",
            "/// The default remapping sequence of a [`PHastR`]",
        ),
    ]
    .concat()
}

/// `Geometry` and what makes one; the salts and weights of levels.
fn from_builder(builder: &Source) -> String {
    let make = builder.cut(
        "    /// Computes the geometry of a level with `k` keys",
        "}\n\nimpl Default for PHastRBuilder",
    );
    let geometry = builder.cut(
        "/// The geometry of a level during construction.",
        "    /// Returns the parameters of a level with this geometry;",
    );
    let weights = builder
        .cut("/// Default size-dependent priority weights", "/// Logs the completion of a phase");
    format!("impl PHastRBuilder {{\n{make}}}\n\n{geometry}}}\n\n{weights}")
}

/// What sweep.rs keeps to itself and the oracle wants by itself: a second copy, from the same text.
fn from_sweep(sweep: &Source) -> String {
    let window = sweep.cut(
        "/// Number of buckets in the window of a sweep.",
        "/// The type of the seeds of a level during its sweep",
    );
    let rings = sweep.cut(
        "/// The parameters of the rings of a level, and of the set of used slots of\n/// a sweep.",
        "    /// Returns the offset in its slice of the base slot of a key in layout\n",
    );
    let origin = sweep.cut("const ORIGIN_OFFSET", "/// The number of fractional bits");
    let fraction =
        sweep.cut("const LOG2_FRACTION", "/// The state of a sweep over a range of buckets.");
    let distance = sweep.cut("let max_distance =", "        Self {\n            sigs,");
    let log2 = sweep.cut("(0..=max_distance)", ",\n            back: Vec::with_capacity(64),");
    format!(
        "{window}{rings}}}\n\n{origin}{fraction}\
         pub(super) fn max_distance(g: &Geometry) -> usize {{\n    {distance}    max_distance\n}}\n\n\
         pub(super) fn log2_table(max_distance: usize) -> Vec<u32> {{\n    {log2}\n}}\n"
    )
}

fn write(name: &str, text: &str) {
    let path = Path::new(&env::var_os("OUT_DIR").unwrap()).join(name);
    fs::write(&path, text)
        .unwrap_or_else(|e| stop(&format!("cannot write {}: {e}", path.display())));
}
