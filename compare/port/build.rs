//! Links the static libraries of the crates probe_c, player_c, search_c, sensor_calls_c, bench_c, bench_calls_c, map_c
//! and map_calls_c, which `compare/prepare` puts into `target/staticlib` of the workspace, without the `_c`.
use std::path::Path;

fn main() {
    let folder = Path::new(env!("CARGO_MANIFEST_DIR")).join("../target/staticlib");
    println!("cargo:rustc-link-search=native={}", folder.display());
    for name in ["probe", "player", "search", "sensor_calls", "bench", "bench_calls", "map", "map_calls"] {
        let archive = folder.join(format!("lib{name}.a"));
        if !archive.exists() {
            eprintln!("{} is missing: compare/run builds it", archive.display());
            std::process::exit(1);
        }
        println!("cargo:rerun-if-changed={}", archive.display());
        println!("cargo:rustc-link-lib=static={name}");
    }
}
