//! Writes the interpreter once more for each planted fault of faults.txt, the writer, with the
//! interpreter whose rules it shares, for each of writer_faults.txt, and the commands for each of
//! command_faults.txt, with that fault in them.

use std::path::Path;
use std::{env, fs};

/// A list of faults, what they are edits of, and what is tried of each copy.
struct Plants {
    faults: &'static str,
    /// Files of src, which see each other as they do there.
    sources: &'static [&'static str],
    /// The constant that lists the copies, and the type of what is tried.
    list: &'static str,
    kind: &'static str,
    /// What is tried, in one of the sources.
    tried: &'static str,
}

const PLANTS: [Plants; 3] = [
    Plants {
        faults: "../faults.txt",
        sources: &["interpreter"],
        list: "FAULTS",
        kind: "Engine",
        tried: "interpreter::ENGINE",
    },
    Plants {
        faults: "../writer_faults.txt",
        sources: &["writer", "interpreter"],
        list: "WRITER_FAULTS",
        kind: "Writer",
        tried: "writer::WRITER",
    },
    Plants {
        faults: "../command_faults.txt",
        sources: &["commands"],
        list: "COMMAND_FAULTS",
        kind: "Commander",
        tried: "commands::COMMANDER",
    },
];

/// Lines of a source and what stands in their place.
#[derive(Default)]
struct Edit {
    old: Vec<String>,
    new: Vec<String>,
}

impl Edit {
    /// Where the old lines are among these.
    fn places(&self, lines: &[&str]) -> Vec<usize> {
        let is_old =
            |part: &[&str]| part.iter().zip(&self.old).all(|(line, old)| line.trim() == old);
        let parts = lines.windows(self.old.len()).enumerate();
        parts.filter(|(_, part)| is_old(part)).map(|(at, _)| at).collect()
    }

    /// Replaces the old lines, which must be in the sources exactly once.
    fn apply<'a>(&'a self, sources: &mut [Vec<&'a str>], fault: &str) {
        assert!(!self.old.is_empty(), "fault {fault} has no old lines");
        let all = sources.iter().enumerate();
        let found: Vec<(usize, usize)> = all
            .flat_map(|(source, lines)| self.places(lines).into_iter().map(move |at| (source, at)))
            .collect();
        let [(source, at)] = found[..] else {
            panic!("fault {fault}: {:?} occur {} times, not once", self.old, found.len());
        };
        let new = self.new.iter().map(String::as_str);
        sources[source].splice(at..at + self.old.len(), new);
    }
}

/// A planted fault: one edit, or several that belong together.
struct Fault {
    name: String,
    sentence: String,
    edits: Vec<Edit>,
}

impl Fault {
    fn of_block(block: &[&str]) -> Fault {
        let title = block[0].strip_prefix("fault ").and_then(|rest| rest.split_once(':'));
        let Some((name, sentence)) = title else {
            panic!("`{}` is not `fault NAME: sentence`", block[0]);
        };
        let (name, sentence) = (name.trim().to_string(), sentence.trim().to_string());
        let mut edits = vec![Edit::default()];
        for line in &block[1..] {
            if line.starts_with('-') && edits.last().is_some_and(|edit| !edit.new.is_empty()) {
                edits.push(Edit::default());
            }
            match (line.split_at_checked(1), edits.last_mut()) {
                (Some(("-", text)), Some(edit)) => edit.old.push(text.trim().into()),
                (Some(("+", text)), Some(edit)) => edit.new.push(text.trim().into()),
                _ => panic!("fault {name}: what is `{line}`?"),
            }
        }
        Fault { name, sentence, edits }
    }

    /// The sources with the fault in them.
    fn planted(&self, sources: &[String]) -> Vec<String> {
        let mut sources: Vec<Vec<&str>> =
            sources.iter().map(|source| source.lines().collect()).collect();
        self.edits.iter().for_each(|edit| edit.apply(&mut sources, &self.name));
        sources.iter().map(|lines| lines.join("\n")).collect()
    }
}

fn faults(text: &str) -> Vec<Fault> {
    let lines = text.lines().map(str::trim_end).filter(|line| !line.starts_with('#'));
    let lines: Vec<&str> = lines.collect();
    let blocks = lines.split(|line| line.is_empty()).filter(|block| !block.is_empty());
    blocks.map(Fault::of_block).collect()
}

fn text_of(path: &str) -> String {
    println!("cargo:rerun-if-changed={path}");
    fs::read_to_string(path).unwrap_or_else(|error| panic!("{path}: {error}"))
}

fn write(path: &Path, text: &str) {
    fs::write(path, text).unwrap_or_else(|error| panic!("{}: {error}", path.display()));
}

impl Plants {
    /// A module for each fault, its sources inside, and the list of what is tried of each.
    fn planted(&self, folder: &Path) -> String {
        let texts = self.sources.iter().map(|source| text_of(&format!("../src/{source}.rs")));
        let texts: Vec<String> = texts.collect();
        let Plants { list, kind, tried, .. } = self;
        let (mut modules, mut entries) = (String::new(), String::new());
        for (k, fault) in faults(&text_of(self.faults)).iter().enumerate() {
            let module = format!("{}_{k}", list.to_lowercase());
            modules += &format!("#[allow(warnings)]\nmod {module} {{\n");
            for (source, text) in self.sources.iter().zip(fault.planted(&texts)) {
                let path = folder.join(format!("{module}_{source}.rs"));
                write(&path, &text);
                modules += &format!("    #[path = {path:?}]\n    pub mod {source};\n");
            }
            modules += "}\n";
            let (name, sentence) = (&fault.name, &fault.sentence);
            let copy = format!("{kind} {{ name: {name:?}, ..{module}::{tried} }}");
            entries += &format!("    ({name:?}, {sentence:?}, {copy}),\n");
        }
        modules + &format!("pub const {list}: &[(&str, &str, {kind})] = &[\n{entries}];\n")
    }
}

fn main() {
    println!("cargo:rerun-if-changed=build.rs");
    let folder = env::var("OUT_DIR").expect("cargo sets OUT_DIR");
    let folder = Path::new(&folder);
    let planted: String = PLANTS.iter().map(|plants| plants.planted(folder)).collect();
    write(&folder.join("faults.rs"), &planted);
}
