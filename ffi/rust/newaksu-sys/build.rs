//! Finds libnewaksu: in NEWAKSU_LIB_DIR, or where pkg-config says.

use std::env;
use std::process::Command;

fn main() {
    println!("cargo:rerun-if-env-changed=NEWAKSU_LIB_DIR");
    println!("cargo:rerun-if-env-changed=PKG_CONFIG_PATH");
    match env::var("NEWAKSU_LIB_DIR") {
        Ok(folder) => {
            println!("cargo:rerun-if-changed={folder}/libnewaksu.a");
            link(&folder);
        }
        Err(_) => link(&folder_of_package()),
    }
}

fn link(folder: &str) {
    println!("cargo:rustc-link-search=native={folder}");
    println!("cargo:rustc-link-lib=static=newaksu");
}

/// Where the installed package has its archive; it has to be of this crate's version.
fn folder_of_package() -> String {
    let wanted = format!("newaksu = {}", env!("CARGO_PKG_VERSION"));
    let ran = Command::new("pkg-config")
        .args(["--variable=libdir", "--print-errors", &wanted])
        .output();
    match ran {
        Ok(output) if output.status.success() => {
            String::from_utf8_lossy(&output.stdout).trim().to_owned()
        }
        Ok(output) => panic!(
            "libnewaksu was not found: set NEWAKSU_LIB_DIR to its folder, or install it. {}",
            String::from_utf8_lossy(&output.stderr)
        ),
        Err(error) => {
            panic!("set NEWAKSU_LIB_DIR to the folder of libnewaksu.a: no pkg-config: {error}")
        }
    }
}
