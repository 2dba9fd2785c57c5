//! Random lists as a mapper may send them, sound and damaged; the same seed gives the same.

use crate::csv::{Site, Zone, LONGEST_NAME, MOST_METRES, MOST_SITES};
use crate::random::Random;

/// A field's text: quoted where its value asks for it, or just so.
pub fn field(random: &mut Random, value: &[u8]) -> Vec<u8> {
    let special = value.iter().any(|byte| b"\",\r\n".contains(byte));
    if !special && random.percent(70) {
        return value.to_vec();
    }
    let mut text = vec![b'"'];
    for byte in value {
        text.push(*byte);
        if *byte == b'"' {
            text.push(b'"');
        }
    }
    text.push(b'"');
    text
}

/// A list of records: each but the last ends in CRLF, and the last does at times.
pub fn list(random: &mut Random, records: &[Vec<Vec<u8>>]) -> Vec<u8> {
    let mut text = Vec::new();
    for (place, record) in records.iter().enumerate() {
        for (column, value) in record.iter().enumerate() {
            if column > 0 {
                text.push(b',');
            }
            text.extend(field(random, value));
        }
        if place + 1 < records.len() || random.percent(60) {
            text.extend(b"\r\n");
        }
    }
    text
}

/// A number in decimal, at times with zeros in front.
fn digits(random: &mut Random, number: u32) -> Vec<u8> {
    if random.percent(10) {
        return format!("{number:07}").into_bytes();
    }
    number.to_string().into_bytes()
}

fn site_record(random: &mut Random, site: &Site) -> Vec<Vec<u8>> {
    let metres = digits(random, site.metres);
    vec![site.code.clone(), metres, site.zone.clone()]
}

fn zone_record(random: &mut Random, zone: &Zone) -> Vec<Vec<u8>> {
    let (least, most) = (digits(random, zone.least), digits(random, zone.most));
    let empty: &[u8] = if zone.may_be_empty { b"yes" } else { b"no" };
    vec![zone.name.clone(), least, most, empty.to_vec()]
}

/// The two lists of these sites and zones.
pub fn lists(random: &mut Random, sites: &[Site], zones: &[Zone]) -> (Vec<u8>, Vec<u8>) {
    let rows: Vec<_> = sites.iter().map(|s| site_record(random, s)).collect();
    let sites = list(random, &rows);
    let rows: Vec<_> = zones.iter().map(|z| zone_record(random, z)).collect();
    (sites, list(random, &rows))
}

/// A name that no other number gives, of 1 to 16 bytes, of which some want quotes.
fn name(random: &mut Random, number: usize) -> Vec<u8> {
    let mut name = number.to_string().into_bytes();
    let filling: &[u8] = b"ab Z\"\",\r\n.~!";
    let more = match random.below(3) {
        0 => 0,
        1 => random.below(LONGEST_NAME + 1 - name.len()),
        _ => LONGEST_NAME - name.len(),
    };
    for place in 0..more {
        let byte = filling[random.below(filling.len())];
        name.insert(if place % 2 == 0 { 0 } else { name.len() }, byte);
    }
    // Two names may be alike when the filling brings the same digits: it has none.
    name
}

/// Sites and zones that no refusal meets.
pub fn sound(random: &mut Random, most: usize) -> (Vec<Site>, Vec<Zone>) {
    let count = 1 + random.below(most);
    let groups = 1 + random.below(count);
    let zones: Vec<Zone> = (0..groups)
        .map(|number| Zone {
            name: name(random, number),
            least: bound(random, most),
            most: bound(random, most),
            may_be_empty: random.percent(50),
        })
        .collect();
    let mut sites = Vec::new();
    for number in 0..count {
        let zone = if number < groups {
            number
        } else {
            random.below(groups)
        };
        sites.push(Site {
            code: name(random, number),
            metres: match random.below(4) {
                0 => 0,
                1 => MOST_METRES,
                _ => random.below(500) as u32,
            },
            zone: zones[zone].name.clone(),
        });
    }
    // The zones' order is not the one in which the sites name them.
    for place in (1..sites.len()).rev() {
        sites.swap(place, random.below(place + 1));
    }
    (sites, zones)
}

fn bound(random: &mut Random, most: usize) -> u32 {
    match random.below(8) {
        0 => MOST_SITES,
        _ => random.below(most.min(4) + 1) as u32,
    }
}

/// A list with something wrong, or just another.
pub fn damage(random: &mut Random, text: &[u8]) -> Vec<u8> {
    let mut bytes = text.to_vec();
    let place = random.below(bytes.len() + 1);
    let special: &[u8] = b"\",\r\n\"\r\n0 9a\t\x7f\x80";
    match random.below(8) {
        0 => bytes.truncate(place),
        1 if place < bytes.len() => drop(bytes.remove(place)),
        2 if place < bytes.len() => bytes[place] = special[random.below(special.len())],
        3 => bytes.insert(place, special[random.below(special.len())]),
        // A piece stands twice, or is left out.
        4 => {
            let end = place + random.below(bytes.len() - place + 1).min(20);
            let piece = bytes[place..end].to_vec();
            let at = random.below(bytes.len() + 1);
            bytes.splice(at..at, piece);
        }
        5 => {
            let end = place + random.below(bytes.len() - place + 1).min(20);
            bytes.drain(place..end);
        }
        6 => {
            let lines: [&[u8]; 7] = [
                b"\r\n",
                b"far,9999999,0\r\n",
                b"x,12345678,0\r\n",
                b"z,513,0,no\r\n",
                b"z,0,512,yes\r\n",
                b"a,1,nowhere\r\n",
                b"a,1,\"open",
            ];
            let line = lines[random.below(lines.len())];
            let starts = row_starts(&bytes);
            let at = starts[random.below(starts.len())];
            bytes.splice(at..at, line.iter().copied());
        }
        _ => {
            if let Some(at) = bytes.iter().position(|byte| byte.is_ascii_digit()) {
                bytes[at] = b'0' + random.below(10) as u8;
            }
        }
    }
    bytes
}

/// Behind each CRLF, and the beginning.
fn row_starts(bytes: &[u8]) -> Vec<usize> {
    let ends = bytes.windows(2).enumerate().filter(|(_, w)| w == b"\r\n");
    let mut starts: Vec<usize> = ends.map(|(place, _)| place + 2).collect();
    starts.push(0);
    starts
}
