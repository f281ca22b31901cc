//! Tells where the archive is: in the folder that L6_STORE_LIB names, in dist/ of the repository, or where ./install puts it. That of
//! dist/ is the one for the processor and system that the program is for: without a system, as for a kernel, the one without SSE.

use std::path::Path;

fn main() {
    let of = |name: &str| std::env::var(name).unwrap_or_default();
    let (here, named) = (of("CARGO_MANIFEST_DIR"), of("L6_STORE_LIB"));
    let kind = match (of("CARGO_CFG_TARGET_ARCH").as_str(), of("CARGO_CFG_TARGET_OS").as_str()) {
        ("x86_64", "none") => "-nosse".to_string(),
        ("x86_64", _) => String::new(),
        (processor, _) => format!("-{processor}"),
    };
    let dist = format!("{here}/../../dist");
    // (an installed one is for the machine that it is on)
    let installed = if of("HOST") == of("TARGET") { format!("{here}/../../../../lib") } else { String::new() };
    let of_kind = format!("l6_store{kind}.a");
    let archives = [(&named, "l6_store.a"), (&dist, &of_kind), (&installed, "libl6_store.a")];
    if let Some((folder, file)) = archives.iter().find(|(folder, file)| Path::new(folder).join(file).is_file()) {
        println!("cargo:rustc-link-search=native={folder}");
        println!("cargo:rustc-link-lib=static:+verbatim={file}");
    } else {
        println!("cargo:warning=no l6_store.a is there: let L6_STORE_LIB be the folder that has it");
    }
    println!("cargo:rerun-if-env-changed=L6_STORE_LIB");
}
