//! Random option areas: good ones, damaged ones, made-up ones.

use super::random::Random;

/// An area without an ENO option.
pub fn bare(random: &mut Random) -> Vec<u8> {
    let areas: [&[u8]; 5] = [
        &[],
        &[2, 4, 5, 0xb4],
        &[1, 1, 8, 10, 1, 2, 3, 4, 5, 6, 7, 8],
        &[1, 0, 0x45, 3, 0x23],
        &[0xfd, 5, 0x45, 0x4e, 0x23],
    ];
    random.pick(&areas).to_vec()
}

/// An area with this option, at most 40 bytes where the option leaves room.
pub fn wrap(random: &mut Random, option: &[u8]) -> Vec<u8> {
    let mut area = Vec::new();
    for _ in 0..random.below(3) {
        let before: &[&[u8]] = &[&[1], &[1, 1], &[2, 4, 5, 0xb4], &[4, 2], &[3, 3, 7]];
        let piece = random.pick(before);
        if area.len() + piece.len() + option.len() <= 40 {
            area.extend(piece);
        }
    }
    area.extend(option);
    let behind: &[&[u8]] = &[&[], &[], &[1], &[4, 2], &[0], &[0, 0x45, 3, 0x21], &[0, 2]];
    let piece = random.pick(behind);
    if area.len() + piece.len() <= 40 {
        area.extend(piece);
    }
    area
}

/// A TEP and an identifier half that mean something to a door.
pub type Quote = (u8, Vec<u8>);

/// A TEP and data for it: the lengths around the limits, sometimes a quote.
fn with_data(random: &mut Random, quotes: &[Quote], most: usize) -> (u8, Vec<u8>) {
    let length = match random.below(5) {
        0 => random.below(33),
        _ => random.pick(&[0, 1, 8, 9, 9, 9, 10, 17, 17, 18]),
    };
    let mut tep = tep(random);
    let mut data = random.bytes(length.min(most));
    if !quotes.is_empty() && random.chance(70) {
        let (of, half) = random.pick(quotes);
        let common = half.len().min(data.len());
        data[..common].copy_from_slice(&half[..common]);
        if random.chance(80) {
            tep = of;
        }
    }
    (tep, data)
}

fn tep(random: &mut Random) -> u8 {
    if random.chance(90) {
        random.pick(&[0x21, 0x22, 0x23, 0x24])
    } else {
        random.from(0x20, 0x7f) as u8
    }
}

/// A made-up option; `b` is what its global byte says, if it has one, and `quotes` what it may quote.
pub fn made_up(random: &mut Random, b: u8, quotes: &[Quote]) -> Vec<u8> {
    let mut contents = Vec::new();
    if random.chance(85) {
        let others = if random.chance(60) {
            0
        } else {
            random.byte() & 0x1e
        };
        contents.push(b | others | if random.chance(50) { 2 } else { 0 });
    }
    if !quotes.is_empty() && random.chance(20) {
        for _ in 0..random.from(1, 3) {
            let (tep, half) = random.pick(quotes);
            contents.extend([0x88, 0x80 | tep]);
            contents.extend(half);
        }
    }
    for _ in 0..random.below(6) {
        let room = 38 - contents.len();
        match random.below(20) {
            0..=10 if room >= 1 => contents.push(tep(random)),
            11..=14 if room >= 3 => {
                let (tep, data) = with_data(random, quotes, room - 2);
                if !data.is_empty() {
                    contents.push(0x80 | (data.len() as u8 - 1));
                    contents.push(0x80 | tep);
                    contents.extend(data);
                }
            }
            15..=17 if room >= 1 => {
                let (tep, data) = with_data(random, quotes, room - 1);
                contents.push(0x80 | tep);
                contents.extend(data);
                break;
            }
            18 if room >= 1 => contents.push(random.byte() & 0x1f),
            19 if room >= 6 && random.chance(50) => {
                // A length byte before what is mostly no TEP with data.
                let length = random.below(4);
                contents.push(0x80 | length as u8);
                contents.push(random.pick(&[0x00, 0x23, 0x7f, 0x80, 0x83, 0x9f, 0xa0, 0xa3]));
                contents.extend(random.bytes(length + 1));
            }
            _ => {}
        }
    }
    let mut option = vec![0x45, contents.len() as u8 + 2];
    option.append(&mut contents);
    option
}

/// An area that is unreadable at a random place: whole options before it, this one among them where it is whole and has room, and there an option
/// without its length byte, or with one that is below 2 or beyond the end.
pub fn broken(random: &mut Random, option: &[u8]) -> Vec<u8> {
    let mut whole: Vec<&[u8]> = vec![&[1], &[1, 1], &[2, 4, 5, 0xb4], &[4, 2], &[3, 3, 7]];
    if option.get(1).map(|length| usize::from(*length)) == Some(option.len()) {
        whole.extend([option, option]);
    }
    let place = random.below(40);
    let mut area = Vec::new();
    while area.len() < place {
        let piece = random.pick(&whole);
        if area.len() + piece.len() <= place {
            area.extend(piece);
        } else {
            area.push(1);
        }
    }
    let any = random.from(2, 255) as u8;
    area.push(random.pick(&[2, 3, 4, 8, 0x45, 0x45, any]));
    let behind = random.below(40 - place);
    if behind > 0 {
        let longer = random.from(behind + 2, 255) as u8;
        area.push(random.pick(&[0, 1, behind as u8 + 2, longer]));
        area.extend(random.bytes(behind - 1));
    }
    area
}

/// An area in which something happened to this option.
pub fn damaged(random: &mut Random, option: &[u8], quotes: &[Quote]) -> Vec<u8> {
    let mut option = option.to_vec();
    match random.below(16) {
        0 => return bare(random),
        1 => {
            let mut area = wrap(random, &option);
            area.truncate(38);
            area.extend([0x45, 2]);
            return area;
        }
        2 => {
            let fault: &[&[u8]] = &[&[2], &[2, 1], &[2, 0], &[0x45], &[3, 9, 1]];
            option.extend(random.pick(fault));
            return option;
        }
        3 => {
            let bad: &[&[u8]] = &[
                &[0x45, 4, 0x80, 0x21],
                &[0x45, 3, 0x80],
                &[0x45, 4, 0x80, 0xa3],
            ];
            option = random.pick(bad).to_vec();
        }
        4 => {
            if option.len() > 2 {
                option[2] ^= 1;
            }
        }
        5 => {
            if option.len() > 2 && option[2] < 0x20 {
                option[2] ^= 2;
            }
        }
        6 | 7 => {
            let place = random.below(option.len());
            option[place] ^= 1 << random.below(8);
        }
        8 => {
            option.push(tep(random));
            option[1] += 1;
        }
        9 => {
            let length = random.pick(&[41, 41, 42, 60, 255, 296]);
            option.resize(length, 1);
            return option;
        }
        10 => {
            let length = random.below(41);
            return random.bytes(length);
        }
        11 => {
            let place = random.below(option.len());
            option.truncate(place);
        }
        12 | 13 => return broken(random, &option),
        _ => {
            let b = random.below(2) as u8;
            option = made_up(random, b, quotes);
        }
    }
    wrap(random, &option)
}
