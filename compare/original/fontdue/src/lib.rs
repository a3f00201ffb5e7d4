//! Stands in for the font crate. The canvas makes its fonts when it is made; all else here is
//! called only where text is drawn.

#[derive(Default)]
pub struct FontSettings;

pub struct Font;

pub struct Metrics {
    pub width: usize,
    pub bounds: OutlineBounds,
}

pub struct OutlineBounds {
    pub xmin: f32,
    pub ymin: f32,
    pub height: f32,
}

pub struct LineMetrics {
    pub ascent: f32,
    pub descent: f32,
}

impl Font {
    pub fn from_bytes(_data: &[u8], _settings: FontSettings) -> Result<Font, &'static str> {
        Ok(Font)
    }

    pub fn rasterize(&self, _character: char, _px: f32) -> (Metrics, Vec<u8>) {
        unreachable!("text is not drawn")
    }

    pub fn horizontal_line_metrics(&self, _px: f32) -> Option<LineMetrics> {
        unreachable!("text is not drawn")
    }

    pub fn lookup_glyph_index(&self, _character: char) -> u16 {
        unreachable!("text is not drawn")
    }
}

pub mod layout {
    pub struct CharacterData;

    impl CharacterData {
        pub fn classify(_character: char, _index: u16) -> CharacterData {
            unreachable!("text is not drawn")
        }

        pub fn is_control(&self) -> bool {
            unreachable!("text is not drawn")
        }
    }
}
