//! Accepted images with random damage.

use super::random::Random;
use super::tables::{field_count, get_field, set_field, spans, Span, FOLDER_APPLIES};

/// Damages an accepted image one to three times. The image may still be accepted afterwards.
pub fn damage(random: &mut Random, image: &mut Vec<u8>) {
    let spans = spans(image);
    let values = telling_values(image);
    for _ in 0..1 + random.below(3) {
        let span = random.pick(&spans);
        match random.below(11) {
            0 => replace_header_field(random, image, &values),
            1 | 2 => replace_field(random, image, &values),
            3 => flip_bit(random, image),
            4 => change_length(random, image),
            5 => swap_rows(random, image, &span),
            6 => repeat_row(random, image, &span),
            7 | 8 => write_into_unused_row(random, image, &span),
            9 => change_folder(random, image, &spans[3]),
            _ => replace_row_field(random, image, &span, &values),
        }
    }
}

/// Values that are likely to show a fault: near the counts and offsets of this image, and near the
/// limits of 32-bit arithmetic.
pub fn telling_values(image: &[u8]) -> Vec<u32> {
    let length = image.len() as u32;
    let mut values: Vec<u32> = (0..=9).chain([36, length]).collect();
    values.extend([length - 1, length + 1, 65_536, 65_537]);
    values.extend([1 << 31, (1 << 31) - 1, u32::MAX, u32::MAX - 1]);
    for span in spans(image) {
        let (start, used) = (span.start as u32, span.used as u32);
        let (capacity, row) = (span.capacity as u32, span.row_bytes as u32);
        values.extend([used.wrapping_sub(1), used, used + 1, capacity, capacity + 1]);
        values.extend([start - row, start - 4, start - 1]);
        values.extend([start + 1, start + 4, start + row]);
        // In 32 bits, 2^30 rows more give the same product with the bytes of a row. So do 2^28 more
        // for rows of 16 bytes.
        values.extend([used + (1 << 28), used + (1 << 30)]);
    }
    values.sort_unstable();
    values.dedup();
    values
}

fn replace_header_field(random: &mut Random, image: &mut [u8], values: &[u32]) {
    if field_count(image) >= 9 {
        set_field(image, random.below(9), random.pick(values));
    }
}

fn replace_field(random: &mut Random, image: &mut [u8], values: &[u32]) {
    if let Some(last) = field_count(image).checked_sub(1) {
        set_field(image, random.up_to(last), random.pick(values));
    }
}

/// Replaces a field of a used row by a number next to its old value, or by one of the values.
fn replace_row_field(random: &mut Random, image: &mut [u8], span: &Span, values: &[u32]) {
    let bytes = span.used * span.row_bytes;
    if bytes == 0 || span.start + bytes > image.len() {
        return;
    }
    let field = (span.start + random.below(bytes)) / 4;
    let old = get_field(image, field);
    let near = [
        old.wrapping_sub(1),
        old.wrapping_add(1),
        random.pick(values),
    ];
    set_field(image, field, random.pick(&near));
}

/// Puts a used item into another folder, mostly into one near its own number, or changes whether its
/// folder applies.
fn change_folder(random: &mut Random, image: &mut [u8], items: &Span) {
    if items.used == 0 || items.row(items.used) > image.len() {
        return;
    }
    let row = random.below(items.used);
    let (flags, folder) = (items.field(row, 2), items.field(row, 3));
    if random.one_in(2) {
        let number = row as u32 + 1;
        let used = items.used as u32;
        let near = [0, number - 1, number, number + 1, used, used + 1, u32::MAX];
        set_field(image, folder, random.pick(&near));
    } else {
        let old = get_field(image, flags);
        set_field(image, flags, old ^ FOLDER_APPLIES);
    }
}

fn flip_bit(random: &mut Random, image: &mut [u8]) {
    if !image.is_empty() {
        image[random.below(image.len())] ^= 1 << random.below(8);
    }
}

/// Cuts the image or makes it longer. Half of the time the new length is recorded as the total.
fn change_length(random: &mut Random, image: &mut Vec<u8>) {
    let length = match random.below(4) {
        0 => random.up_to(image.len()),
        1 => image.len() + random.up_to(40),
        2 => image.len().saturating_sub(random.pick(&[1, 4, 12, 16, 20])),
        _ => random.pick(&[0, 35, 36, 37, 48, 65_535, 65_536, 65_537]),
    };
    let filler = random.pick(&[0, 0, 255]);
    image.resize(length, filler);
    if length >= 36 && random.one_in(2) {
        set_field(image, 8, length as u32);
    }
}

fn swap_rows(random: &mut Random, image: &mut [u8], span: &Span) {
    let Some((one, other)) = two_rows(random, image, span) else {
        return;
    };
    for byte in 0..span.row_bytes {
        image.swap(span.row(one) + byte, span.row(other) + byte);
    }
}

fn repeat_row(random: &mut Random, image: &mut [u8], span: &Span) {
    let Some((one, other)) = two_rows(random, image, span) else {
        return;
    };
    let from = span.row(one);
    image.copy_within(from..from + span.row_bytes, span.row(other));
}

/// Two neighbouring used rows.
fn two_rows(random: &mut Random, image: &[u8], span: &Span) -> Option<(usize, usize)> {
    let is_there = span.used >= 2 && span.row(span.used) <= image.len();
    is_there.then(|| {
        let first = random.below(span.used - 1);
        (first, first + 1)
    })
}

fn write_into_unused_row(random: &mut Random, image: &mut [u8], span: &Span) {
    let (start, end) = (span.row(span.used), span.row(span.capacity));
    if start < end && end <= image.len() {
        image[start + random.below(end - start)] = 1 + random.below(255) as u8;
    }
}
