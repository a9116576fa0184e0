//! Images that are written: from their fields, and from the fields of stored ones.

use uviktalik::numbers::{INSTRUCTION_WORDS, MAX_IMAGE, MAX_MEMORY, REGION_WORDS};
use uviktalik::{Cause, Fields, Header, Refusal};

use crate::desk::image;

/// MOV 0,8; LD32 1,0,0; EMIT 1,2; STOP: document 01's example.
const CODE: [u32; 8] = [0xFF00_0001, 8, 0x0000_010E, 0, 0x0001_0012, 2, 0, 0];
const REGIONS: [u32; 3] = [8, 4, 2];
const EXAMPLE: Fields = Fields { m: 16, instructions: &CODE, regions: &REGIONS, data: &[] };

fn refused(cause: Cause, index: usize) -> Result<usize, Refusal> {
    Err(Refusal { cause, index })
}

/// What is answered, and the buffer afterwards, which was EE.
fn written(fields: &Fields, room: usize) -> (Result<usize, Refusal>, Vec<u8>) {
    let mut out = vec![0xEE; room];
    (uviktalik::write(fields, &mut out), out)
}

fn words(bytes: &[u8]) -> Vec<u32> {
    let words = bytes.chunks_exact(4);
    words.map(|bytes| u32::from_le_bytes(bytes.try_into().expect("four"))).collect()
}

#[test]
fn the_example_is_the_image_of_document_01() {
    let expected = "54554e31100000000400000020000000010000004000000000000000 4c000000\
                    010000ff08000000 0e01000000000000 1200010002000000 0000000000000000\
                    080000000400000002000000";
    let (answer, out) = written(&EXAMPLE, 80);
    assert_eq!(answer, Ok(76));
    let hex: String = out[..76].iter().map(|byte| format!("{byte:02x}")).collect();
    assert_eq!(hex, expected.replace(' ', ""));
    assert_eq!(out[76..], [0xEE; 4]);
}

#[test]
fn room_is_asked_for_last() {
    assert_eq!(written(&EXAMPLE, 76).0, Ok(76));
    let (answer, out) = written(&EXAMPLE, 75);
    assert_eq!((answer, out), (refused(Cause::NO_ROOM, 0), vec![0xEE; 75]));
    let no_sum = Fields { data: &[0], ..EXAMPLE };
    assert_eq!(written(&no_sum, 0).0, refused(Cause::WRONG_SUM, 0));
    let no_region = Fields { regions: &[8, 4, 2, 11, 1, 2], ..no_sum };
    assert_eq!(written(&no_region, 0).0, refused(Cause::BAD_REGION, 1));
    let mut code = CODE;
    code[4] = 25;
    let no_code = Fields { instructions: &code, ..no_region };
    assert_eq!(written(&no_code, 0).0, refused(Cause::BAD_INSTRUCTION, 2));
    assert_eq!(written(&Fields { m: 0, ..no_code }, 0).0, refused(Cause::OUT_OF_LIMITS, 0));
}

#[test]
fn lists_have_whole_entries() {
    let limits = refused(Cause::OUT_OF_LIMITS, 0);
    for words in [0, 1, 7] {
        let short = Fields { instructions: &CODE[..words], ..EXAMPLE };
        assert_eq!(written(&short, 80), (limits, vec![0xEE; 80]), "{words} words");
    }
    for words in [1, 2] {
        let short = Fields { regions: &REGIONS[..words], ..EXAMPLE };
        assert_eq!(written(&short, 80), (limits, vec![0xEE; 80]), "{words} words");
    }
    assert_eq!(written(&Fields { regions: &[], ..EXAMPLE }, 80).0, Ok(64));
}

/// The fields of an image, as lists of their own.
struct Taken {
    m: u32,
    instructions: Vec<u32>,
    regions: Vec<u32>,
    data: Vec<u8>,
}

impl Taken {
    fn of(image: &[u8]) -> Taken {
        let Header { m, n, r, d, code } = uviktalik::read(image).expect("an accepted image");
        let rest = &image[code.as_ptr_range().end as usize - image.as_ptr() as usize..];
        let (regions, data) = rest.split_at(4 * REGION_WORDS * r as usize);
        let (instructions, regions, data) = (words(code), words(regions), data.to_vec());
        assert_eq!(instructions.len(), INSTRUCTION_WORDS * n as usize);
        assert_eq!(data.len(), d as usize);
        Taken { m, instructions, regions, data }
    }

    fn written(&self, room: usize) -> (Result<usize, Refusal>, Vec<u8>) {
        let Taken { m, instructions, regions, data } = self;
        written(&Fields { m: *m, instructions, regions, data }, room)
    }
}

#[test]
fn stored_images_are_read_and_written_again() {
    for name in [
        "examples/incident",
        "examples/sensor",
        "tests/frame_read",
        "tests/longest",
        "tests/longest_before",
    ] {
        let image = image(name);
        let (answer, out) = Taken::of(&image).written(MAX_IMAGE);
        assert_eq!(answer, Ok(image.len()), "{name}");
        assert_eq!(out[..image.len()], image, "{name}");
        assert!(out[image.len()..].iter().all(|&byte| byte == 0xEE), "{name}");
    }
}

#[test]
fn the_longest_image_takes_all_the_room() {
    let longest = Taken::of(&image("tests/longest"));
    let (answer, out) = longest.written(MAX_IMAGE - 1);
    assert_eq!(answer, refused(Cause::NO_ROOM, 0));
    assert!(out.iter().all(|&byte| byte == 0xEE));
    assert_eq!(longest.written(MAX_IMAGE).0, Ok(MAX_IMAGE));
}

#[test]
fn a_field_one_above_its_limit_is_refused() {
    for grow in [
        |fields: &mut Taken| fields.m = MAX_MEMORY as u32 + 1,
        |fields: &mut Taken| fields.instructions.extend([0; INSTRUCTION_WORDS]),
        |fields: &mut Taken| fields.regions.extend([0; REGION_WORDS]),
        |fields: &mut Taken| fields.data.push(0),
    ] {
        let mut fields = Taken::of(&image("tests/longest"));
        grow(&mut fields);
        assert_eq!(fields.written(MAX_IMAGE + 100).0, refused(Cause::OUT_OF_LIMITS, 0));
    }
}
