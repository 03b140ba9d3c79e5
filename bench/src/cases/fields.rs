//! The fields of any layouts.

use super::{label, MANY};
use crate::case::Case;
use crate::library::fields as library;
use crate::plain::fields as plain;
use crate::plain::layout::Numbers;
use crate::random::Random;

/// A layout and a channel.
type Asked = (Numbers, u8);

pub fn cases() -> Result<Vec<Case>, String> {
    let mut random = Random::new();
    let any = |_| (random.layout(), random.below(3));
    let asked: Vec<Asked> = (0..MANY).map(any).collect();
    let (layout, channel) = asked[0];
    let outside: [Asked; 3] = [
        (Numbers::default(), channel),
        (layout, 3),
        (random.groups(), channel),
    ];
    Ok(vec![
        field_bytes(&asked, &outside)?,
        field_code(&mut random, &asked, &outside)?,
    ])
}

fn field_bytes(asked: &[Asked], outside: &[Asked]) -> Result<Case, String> {
    Case::calls(
        label("field_bytes", "one field", "any layouts"),
        asked.to_vec(),
        outside,
        0,
        [
            |(layout, channel), first| library::field_bytes(*layout, *channel, first),
            |(layout, channel), first| plain::field_bytes(*layout, *channel, first),
        ],
    )
}

fn field_code(random: &mut Random, asked: &[Asked], outside: &[Asked]) -> Result<Case, String> {
    // One byte where there is no field.
    let mut held = |(layout, channel): &Asked| {
        let count = plain::field_bytes(*layout, *channel, &mut 0).max(1);
        let bytes: Vec<u8> = (0..count).map(|_| random.next() as u8).collect();
        (*layout, *channel, bytes)
    };
    let accepted: Vec<(Numbers, u8, Vec<u8>)> = asked.iter().map(&mut held).collect();
    let mut refused: Vec<(Numbers, u8, Vec<u8>)> = outside.iter().map(held).collect();
    let (layout, channel, bytes) = &accepted[0];
    refused.push((*layout, *channel, bytes[1..].to_vec()));
    refused.push((*layout, *channel, [&bytes[..], &[0]].concat()));
    Case::calls(
        label("field_code", "one field", "any layouts"),
        accepted,
        &refused,
        (),
        [
            |(layout, channel, bytes), ()| library::field_code(*layout, *channel, bytes),
            |(layout, channel, bytes), ()| plain::field_code(*layout, *channel, bytes),
        ],
    )
}
