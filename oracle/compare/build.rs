//! Links the library's archive, which `tools/archive.sh` writes. POZHDAGHI_LIB_DIR is
//! the folder that holds it.

fn main() {
    let folder = std::env::var("POZHDAGHI_LIB_DIR").expect("compare.sh says where libpozhdaghi.a is");
    println!("cargo:rerun-if-env-changed=POZHDAGHI_LIB_DIR");
    println!("cargo:rerun-if-changed={folder}/libpozhdaghi.a");
    println!("cargo:rustc-link-search=native={folder}");
    println!("cargo:rustc-link-lib=static=pozhdaghi");
}
