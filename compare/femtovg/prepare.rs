//! Makes femtovg's own files ready to build: copies them with the substitutions below, each of
//! which must be found as often as it says. Arguments: the folder of femtovg's source, the folder
//! to write to.
use std::{env, fs, path::Path, process::exit};

/// A file, a text in it, what replaces it, how often it stands there, and why.
type Substitution = (&'static str, &'static str, &'static str, usize, &'static str);

const FILES: [&str; 5] = ["geometry.rs", "path.rs", "clip/coverage.rs", "clip/mask.rs", "clip/shape.rs"];

const MEANING: &str = "document 01's meaning";
const ARCTANGENT: &str = "document 02's arctangent";
const IMPORT: &str = "import";

const SUBSTITUTIONS: [Substitution; 14] = [
    ("geometry.rs", "use fnv::FnvHasher;", "use std::collections::hash_map::DefaultHasher as FnvHasher;", 1, IMPORT),
    ("path.rs", "mod cache;", "use crate::cache;", 1, IMPORT),
    ("geometry.rs", ".hypot(", ".hypot01(", 3, MEANING),
    ("geometry.rs", ".min(", ".min01(", 8, MEANING),
    ("geometry.rs", ".max(", ".max01(", 11, MEANING),
    ("clip/coverage.rs", ".min(", ".min01(", 4, MEANING),
    ("clip/coverage.rs", ".max(", ".max01(", 5, MEANING),
    ("clip/shape.rs", ".hypot(", ".hypot01(", 9, MEANING),
    ("clip/shape.rs", ".min(", ".min01(", 7, MEANING),
    ("clip/shape.rs", ".max(", ".max01(", 21, MEANING),
    ("clip/shape.rs", "f32::min,", "f32::min01,", 2, MEANING),
    ("clip/shape.rs", "f32::max,", "f32::max01,", 2, MEANING),
    ("clip/shape.rs", "f32::max)", "f32::max01)", 1, MEANING),
    ("clip/shape.rs", ".atan2(", ".arctan02(", 1, ARCTANGENT),
];

/// Lines put behind the end of a file.
const APPENDED: [(&str, &str, &str); 4] = [
    ("geometry.rs", "use crate::meanings::Meanings;", IMPORT),
    ("clip/coverage.rs", "use crate::meanings::Meanings;", IMPORT),
    ("clip/shape.rs", "use crate::meanings::Meanings;", IMPORT),
    (
        "clip/mask.rs",
        "impl MaskKey { pub(crate) fn of(size: [u32; 2], outline: Vec<i32>) -> Self { Self { size, parent: None, outline } } }",
        "a key from a word list",
    ),
];

fn fail(message: &str) -> ! {
    eprintln!("{message}");
    exit(1)
}

fn main() {
    let arguments: Vec<String> = env::args().collect();
    let [_, from, to] = &arguments[..] else { fail("prepare FROM TO") };
    println!("{:<18} {:<30} {:>5}  why", "file", "text", "found");
    for file in FILES {
        let source = Path::new(from).join(file);
        let mut text = fs::read_to_string(&source)
            .unwrap_or_else(|e| fail(&format!("{}: {e}. FEMTOVG_SRC names the folder of femtovg's source", source.display())));
        for (_, old, new, count, why) in SUBSTITUTIONS.iter().filter(|s| s.0 == file) {
            let found = text.matches(old).count();
            println!("{file:<18} {old:<30} {found:>5}  {why}");
            if found != *count {
                fail(&format!("{file}: '{old}' was expected {count} times. The source is not the one that the table was made for"));
            }
            text = text.replace(old, new);
        }
        for (_, line, why) in APPENDED.iter().filter(|s| s.0 == file) {
            println!("{file:<18} {:<30} {:>5}  {why}", "(behind the end)", 1);
            text.push_str(line);
            text.push('\n');
        }
        let target = Path::new(to).join(file);
        fs::create_dir_all(target.parent().unwrap()).and_then(|()| fs::write(&target, text)).unwrap_or_else(|e| fail(&e.to_string()));
    }
}
