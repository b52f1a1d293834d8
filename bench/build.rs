//! Links the proved code and the C loop, which `run` has compiled for this processor.

fn main() {
    println!("cargo:rerun-if-env-changed=BENCH_LIBRARIES");
    let Ok(libraries) = std::env::var("BENCH_LIBRARIES") else {
        panic!("start the bench by bench/run, which compiles what is linked here");
    };
    println!("cargo:rustc-link-search=native={libraries}");
    let mut linked = vec!["exports", "exports_in_place", "exports_by_value", "count"];
    if std::env::var("CARGO_FEATURE_BEFORE").is_ok() {
        linked.extend(["exports_before", "exports_by_value_before"]);
    }
    if std::env::var("CARGO_FEATURE_BEFORE_IN_PLACE").is_ok() {
        linked.push("exports_in_place_before");
    }
    for name in linked {
        println!("cargo:rustc-link-lib=static={name}");
        println!("cargo:rerun-if-changed={libraries}/lib{name}.a");
    }
}
