#[path = "../copied.rs"]
mod copied;

fn main() {
    // The canvas holds fonts that drawing without text never reads.
    for font in ["Medium", "Bold", "MediumItalic", "BoldItalic"] {
        copied::write(&format!("resources/fonts/JetBrainsMonoNL-{font}.ttf"), "");
    }
    let module = copied::module("thermal_renderer", "src/image_renderer/thermal_image.rs");
    copied::write("modules.rs", &module);
}
