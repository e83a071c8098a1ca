//! A colour for each output: dark where a slot is booked, pale where it is leftover.

/// Red, green and blue.
pub type Colour = [u8; 3];

/// The text on a dark and on a pale cell.
pub const ON_DARK: Colour = [255, 255, 255];
pub const ON_PALE: Colour = [26, 26, 26];

/// Dark colours of up to eight outputs. They were chosen by a search for colours that stay apart, dark and pale, with simulated red, green and blue
/// blindness too.
const DARK: [Colour; 8] = [
    [0x1B, 0x67, 0xE8],
    [0xE0, 0x2A, 0x1D],
    [0x07, 0x4E, 0x47],
    [0xBA, 0x34, 0xA8],
    [0x5F, 0x75, 0x00],
    [0x33, 0x16, 0x8F],
    [0x7E, 0x12, 0x11],
    [0x5D, 0x31, 0x6D],
];

/// The dark colour of an output, 1 to `ports`.
pub fn dark(output: usize, ports: usize) -> Colour {
    if ports <= DARK.len() { DARK[output - 1] } else { from_hue(output, ports) }
}

/// The pale colour of an output: the dark one, mixed with white.
pub fn pale(output: usize, ports: usize) -> Colour {
    dark(output, ports).map(|part| (255 - (255 - part as u32) * 42 / 100) as u8)
}

/// Hues spread evenly over the outputs, dimmed to two lightnesses in turn, so that neighbours differ in both.
fn from_hue(output: usize, ports: usize) -> Colour {
    let hue = (output - 1) as f64 * 6.0 / ports as f64;
    let part = |shift: f64| (((hue + shift) % 6.0 - 3.0).abs() - 1.0).clamp(0.0, 1.0);
    let full = [part(0.0), part(4.0), part(2.0)];
    let light = 0.2126 * full[0] * full[0] + 0.7152 * full[1] * full[1] + 0.0722 * full[2] * full[2];
    let wanted: f64 = if output.is_multiple_of(2) { 0.05 } else { 0.14 };
    let dimmed = (wanted / light).sqrt().min(1.0);
    full.map(|part| (part * dimmed * 255.0) as u8)
}

/// As SVG writes it.
pub fn hexadecimal([red, green, blue]: Colour) -> String {
    format!("#{red:02X}{green:02X}{blue:02X}")
}

/// The nearest colour of the 6 x 6 x 6 that terminals with 256 colours have.
pub fn terminal(colour: Colour) -> u8 {
    let [red, green, blue] = colour.map(|part| {
        let levels = [0u8, 95, 135, 175, 215, 255];
        (0..6).min_by_key(|&at| levels[at as usize].abs_diff(part)).unwrap_or(0)
    });
    16 + 36 * red + 6 * green + blue
}

#[cfg(test)]
mod tests {
    use super::*;

    fn luminance(colour: Colour) -> f64 {
        let [red, green, blue] = colour.map(|part| {
            let part = part as f64 / 255.0;
            if part <= 0.04045 { part / 12.92 } else { ((part + 0.055) / 1.055).powf(2.4) }
        });
        0.2126 * red + 0.7152 * green + 0.0722 * blue
    }

    /// The contrast ratio of WCAG 2.
    fn contrast(one: Colour, other: Colour) -> f64 {
        let (one, other) = (luminance(one), luminance(other));
        (one.max(other) + 0.05) / (one.min(other) + 0.05)
    }

    #[test]
    fn text_can_be_read_on_every_colour_and_dark_is_told_from_pale() {
        for ports in 1..=32 {
            for output in 1..=ports {
                let (dark, pale) = (dark(output, ports), pale(output, ports));
                assert!(contrast(dark, ON_DARK) >= 4.5, "dark {output} of {ports}: {}", contrast(dark, ON_DARK));
                assert!(contrast(pale, ON_PALE) >= 4.5, "pale {output} of {ports}: {}", contrast(pale, ON_PALE));
                assert!(contrast(dark, pale) >= 2.0, "{output} of {ports}: {}", contrast(dark, pale));
            }
        }
    }

    fn different<T: Eq + std::hash::Hash>(colours: impl Iterator<Item = T>) -> usize {
        colours.collect::<std::collections::HashSet<_>>().len()
    }

    #[test]
    fn no_two_outputs_have_one_colour() {
        for ports in 1..=32 {
            let (darks, pales) = ((1..=ports).map(|output| dark(output, ports)), (1..=ports).map(|output| pale(output, ports)));
            assert_eq!((different(darks), different(pales)), (ports, ports));
        }
    }

    #[test]
    fn no_two_of_eight_outputs_have_one_terminal_colour() {
        let (darks, pales) = ((1..=8).map(|output| terminal(dark(output, 8))), (1..=8).map(|output| terminal(pale(output, 8))));
        assert_eq!((different(darks), different(pales)), (8, 8));
    }
}
