#[path = "../copied.rs"]
mod copied;

fn main() {
    let modules = ["context", "graphics", "text"]
        .map(|name| copied::module("thermal_parser", &format!("src/{name}.rs")))
        .concat();
    copied::write("modules.rs", &modules);
}
