//! Lays the seven files of the Rust, byte for byte, beside stand-ins for the modules that it lacks, in the build folder;
//! and iic.rs once more, as `rated.rs`, with look-ups in a rate set for its three tables of rates. The folder that holds
//! the Rust is a setting, JETTYPRUNE_SRC.
use std::path::{Path, PathBuf};
use std::{env, fs};

const FILES: [&str; 7] = [
    "time.rs",
    "state.rs",
    "mcu/clocks.rs",
    "mcu/clocks/domain.rs",
    "mcu/clocks/prescaler.rs",
    "mcu/iic.rs",
    "devices/bma150/i2c.rs",
];

const RATED: &str = "mcu/iic.rs";
/// What the copy has a look-up for: the half clocks, the monitors' lengths and the setup's.
const LOOK_UPS: [(&str, &str); 3] = [
    ("[28, 40, 48, 64, 80, 100, 112, 128]", "crate::rates::half_clocks()"),
    ("[15, 39, 35, 83]", "crate::rates::monitors()"),
    ("if self.control & 8 == 0 { 10 } else { 20 }", "crate::rates::setups()[usize::from(self.control >> 3 & 1)]"),
];

fn main() {
    if let Err(reason) = lay_out() {
        eprintln!("{reason}");
        std::process::exit(1);
    }
}

fn lay_out() -> Result<(), String> {
    let compare = Path::new(env!("CARGO_MANIFEST_DIR")).parent().ok_or("no folder above this crate")?;
    let stand_ins = compare.join("reference/src");
    let source = match env::var_os("JETTYPRUNE_SRC") {
        Some(folder) => PathBuf::from(folder),
        None => compare.join("../../shared/docs/src"),
    };
    println!("cargo:rerun-if-env-changed=JETTYPRUNE_SRC");
    let tree = PathBuf::from(env::var_os("OUT_DIR").ok_or("cargo gave no OUT_DIR")?).join("rust");
    for file in FILES {
        let from = source.join("crates/hs-core/src").join(file);
        println!("cargo:rerun-if-changed={}", from.display());
        let text = fs::read(&from).map_err(|e| format!("{}: {e}", from.display()))?;
        write(&tree.join(file), &text)?;
        if file == RATED {
            let text = String::from_utf8(text).map_err(|e| format!("{}: {e}", from.display()))?;
            let rated = rated(&text).map_err(|e| format!("{}: {e}", from.display()))?;
            write(&tree.join("mcu/rated.rs"), rated.as_bytes())?;
        }
    }
    let inside = format!("#[path = {:?}]\npub(crate) mod inside;\n", stand_ins.join("inside.rs"));
    write(&tree.join("mcu/clocks/startup.rs"), inside.as_bytes())?;
    let cursor = "pub(crate) struct CpuCursor;\npub(crate) struct CpuWindow;\n";
    write(&tree.join("mcu/clocks/cursor.rs"), cursor.as_bytes())?;
    write(&tree.join("mcu/mod.rs"), b"pub mod clocks;\npub mod iic;\npub mod rated;\n")?;
    let rest = format!("#[path = {:?}]\nmod rest;\n", stand_ins.join("bma150.rs"));
    let sensor = format!("mod i2c;\n{rest}use crate::{{Error, Time}};\npub use rest::Bma150;\n");
    write(&tree.join("devices/bma150/mod.rs"), sensor.as_bytes())?;
    write(&tree.join("devices/mod.rs"), b"pub mod bma150;\n")?;
    let root = ["time.rs", "state.rs", "mcu/mod.rs", "devices/mod.rs"].map(|file| {
        let name = file.split(['/', '.']).next().unwrap_or(file);
        format!("#[allow(dead_code, unused_imports)]\n#[path = {:?}]\npub mod {name};\n", tree.join(file))
    });
    write(&tree.join("root.rs"), root.concat().as_bytes())
}

/// The copy, or why there is none.
fn rated(text: &str) -> Result<String, String> {
    LOOK_UPS.iter().try_fold(text.to_string(), |text, (table, look_up)| match text.matches(table).count() {
        1 => Ok(text.replace(table, look_up)),
        times => Err(format!("`{table}` is there {times} times, and should be there once")),
    })
}

fn write(to: &Path, text: &[u8]) -> Result<(), String> {
    let done = fs::create_dir_all(to.parent().unwrap_or(to)).and_then(|()| fs::write(to, text));
    done.map_err(|e| format!("{}: {e}", to.display()))
}
