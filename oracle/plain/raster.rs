//! Rasters.

use crate::bitmap::Bitmap;
use crate::rows::decode;
use crate::settings::Settings;

pub struct Raster {
    /// In dots.
    pub left: usize,
    top: usize,
    scale: usize,
    /// In raster dots.
    width: usize,
    height: Option<usize>,
    rows: usize,
    seed: Vec<u8>,
    row: Vec<u8>,
}

impl Raster {
    /// A raster with its upper left dot at a dot, as wide as reaches the right edge where no width is set.
    pub fn start(left: usize, top: usize, dpi: u32, page_width: usize, settings: &Settings) -> Raster {
        let scale = (dpi / settings.resolution) as usize;
        let to_edge = page_width.saturating_sub(left).div_ceil(scale);
        let width = settings.raster_width.unwrap_or(to_edge);
        Raster {
            left,
            top,
            scale,
            width,
            height: settings.raster_height,
            rows: 0,
            seed: vec![0; width.div_ceil(8)],
            row: vec![0; width.div_ceil(8)],
        }
    }

    pub fn skip(&mut self, count: usize) {
        self.rows += count;
        self.seed.fill(0);
    }

    pub fn send(&mut self, method: u32, bytes: &[u8], bitmap: &mut Bitmap) {
        decode(method, bytes, &self.seed, &mut self.row);
        if self.width % 8 > 0
            && let Some(last) = self.row.last_mut()
        {
            *last &= 0xFF << (8 - self.width % 8);
        }
        if self.height.is_none_or(|height| self.rows < height) {
            let top = self.top + self.rows * self.scale;
            bitmap.paint_row(self.left, top, self.scale, &self.row);
        }
        std::mem::swap(&mut self.seed, &mut self.row);
        self.rows += 1;
    }

    /// The dot row below the last row.
    pub fn below(&self) -> usize {
        let rows = self.height.map_or(self.rows, |height| self.rows.min(height));
        self.top + rows * self.scale
    }
}
