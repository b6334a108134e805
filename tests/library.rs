//! The library's one function, behind slices.

#[link(name = "image", kind = "static")]
unsafe extern "C" {
    fn snap_price_image(
        image: *const u8,
        image_len: usize,
        last_sale: u32,
        out: *mut u8,
        out_len: usize,
    ) -> u32;
}

pub fn price_image(image: &[u8], last_sale: u32, out: &mut [u8]) -> u32 {
    // SAFETY: each pointer goes with the length of the slice it comes from.
    unsafe {
        snap_price_image(
            image.as_ptr(),
            image.len(),
            last_sale,
            out.as_mut_ptr(),
            out.len(),
        )
    }
}
