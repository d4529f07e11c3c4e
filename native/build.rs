//! Links the archives that `tools/native` made; LEAN_ARCHIVES is the folder they stand in.
fn main() {
    println!("cargo:rerun-if-env-changed=LEAN_ARCHIVES");
    let folder = std::env::var("LEAN_ARCHIVES").expect("LEAN_ARCHIVES is the folder of the archives (tools/door, tools/replay, tools/convert, tools/salvage, tools/tick, tools/card, tools/sheet and bench/run set it)");
    println!("cargo:rustc-link-search=native={folder}");
    for name in ["door", "lean"] {
        let archive = format!("{folder}/lib{name}.a");
        println!("cargo:rerun-if-changed={archive}");
        if std::path::Path::new(&archive).exists() {
            println!("cargo:rustc-link-lib=static={name}");
        }
    }
}
