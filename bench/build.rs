//! Links the archives of DNW_ARCHIVES, joined by colons: libtest_bench.a, and after it the toolchain's liblibc_c.a.
fn main() {
    println!("cargo:rerun-if-env-changed=DNW_ARCHIVES");
    let archives = std::env::var("DNW_ARCHIVES").expect("bench/run sets DNW_ARCHIVES");
    for archive in archives.split(':') {
        println!("cargo:rerun-if-changed={archive}");
        println!("cargo:rustc-link-arg={archive}");
    }
}
