//! The examples of the documentation, run here too: cargo passes over doc tests where it builds for another machine.
use std::fs;
use std::path::Path;

macro_rules! examples {
    ($($name:ident)*) => {
        $(
            mod $name {
                include!(concat!("../examples/", stringify!($name), ".rs"));

                #[test]
                fn runs() {
                    main();
                }
            }
        )*

        const NAMES: &[&str] = &[$(stringify!($name)),*];
    };
}

examples! { audit blind check difference fault hex key moves overview path record salvage sections shelf store target }

fn texts(folder: &str) -> Vec<(String, String)> {
    let folder = Path::new(env!("CARGO_MANIFEST_DIR")).join(folder);
    let mut texts: Vec<(String, String)> = fs::read_dir(folder)
        .unwrap()
        .map(|entry| entry.unwrap().path())
        .filter(|path| path.is_file())
        .map(|path| (path.file_stem().unwrap().to_str().unwrap().to_string(), fs::read_to_string(path).unwrap()))
        .collect();
    texts.sort();
    texts
}

#[test]
fn every_example_is_run_and_shown() {
    let names: Vec<String> = texts("examples").into_iter().map(|(name, _)| name).collect();
    assert_eq!(names, NAMES);
    let sources: String = texts("src").into_iter().map(|(_, text)| text).collect();
    for name in NAMES {
        assert!(sources.contains(&format!("include_str!(\"../examples/{}.rs\")", name)), "{} is shown nowhere", name);
    }
}

#[test]
fn documentation_has_no_other_example() {
    for (name, text) in texts("src") {
        let fences = text.lines().filter(|line| line.trim_start().starts_with("//") && line.contains("```")).count();
        let shown = text.matches("include_str!(\"../examples/").count();
        assert_eq!(fences, 2 * shown, "{} has an example that is not a file of examples/", name);
    }
}
