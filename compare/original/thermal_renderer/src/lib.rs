//! The original's canvas: its file as it is, without the parts that drawing never calls.

#![allow(warnings)]

pub mod image_renderer {
    include!(concat!(env!("OUT_DIR"), "/modules.rs"));
}

/// Stands in for the renderer, of which the canvas takes only this.
pub mod renderer {
    #[derive(Clone, Default)]
    pub struct DebugProfile {
        pub text: bool,
        pub image: bool,
        pub page: bool,
        pub info: bool,
    }
}

#[cfg(test)]
mod tests {
    use crate::image_renderer::thermal_image::ThermalImage;

    #[test]
    fn a_new_canvas_is_empty() {
        let mut canvas = ThermalImage::new(10);
        let (width, height, dots) = canvas.copy();
        assert_eq!((width, height, dots.len()), (10, 0, 0));
    }
}
