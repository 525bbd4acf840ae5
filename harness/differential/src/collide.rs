//! Keys that fall into one bucket of a table of keys: the worst that can be made of a text, for one window of the search. The tag is that of
//! crates/once (specs/Hash.antt), where it decides no answer; should it change there, these keys are as good as any others.

const MIX: u32 = 2_654_435_761;
const FINISH: u32 = 2_246_822_507;

/// The low half of a number, with its high bits in its low ones.
fn stirred(n: u32) -> u32 {
    n ^ n >> 15
}

fn seeded(salt: u32) -> u32 {
    stirred(salt.wrapping_mul(3_266_489_909).wrapping_add(668_265_263))
}

fn mixed(tag: u32, byte: u8) -> u32 {
    stirred(tag.wrapping_mul(MIX).wrapping_add(byte.into()))
}

fn finished(tag: u32) -> u32 {
    stirred(tag.wrapping_mul(FINISH))
}

/// The bucket of a tag in a table of so many slots; for none, the tag.
fn bucket(tag: u32, slots: u32) -> u32 {
    tag.checked_rem(slots).unwrap_or(tag)
}

// ---- the way back

fn unstirred(n: u32) -> u32 {
    n ^ n >> 15 ^ n >> 30
}

/// What times `n` is 1 in 32 bits, for an odd `n`.
fn inverse(n: u32) -> u32 {
    (0..5).fold(n, |i, _| i.wrapping_mul(2u32.wrapping_sub(n.wrapping_mul(i))))
}

fn before(tag: u32, byte: u8) -> u32 {
    unstirred(tag).wrapping_sub(byte.into()).wrapping_mul(inverse(MIX))
}

fn unfinished(tag: u32) -> u32 {
    unstirred(tag).wrapping_mul(inverse(FINISH))
}

// ---- keys

const LETTERS: &[u8] = b"ABCDEFGHIJKLMNOPQRSTUVWXYZabcdefghijklmnopqrstuvwxyz$_0123456789";

/// The identifier of this length with this number, the first letter no figure.
fn name(mut n: usize, length: u32) -> Vec<u8> {
    let letters = |place| if place == 0 { 54 } else { 64 };
    let letter = |place| {
        let letter = LETTERS[n % letters(place)];
        n /= letters(place);
        letter
    };
    (0..length).map(letter).collect()
}

/// Every identifier, the shorter first.
pub fn names() -> impl Iterator<Item = Vec<u8>> {
    (1..).flat_map(|length| (0..54 * 64usize.pow(length - 1)).map(move |n| name(n, length)))
}

/// Every identifier that falls into the first bucket, the shorter first: good for a table of few slots.
fn near(start: u32, slots: u32) -> impl Iterator<Item = Vec<u8>> {
    names().flat_map(move |name| {
        let tag = name.iter().fold(start, |tag, byte| mixed(tag, *byte));
        let falls = move |byte: &&u8| bucket(finished(mixed(tag, **byte)), slots) == 0;
        LETTERS.iter().filter(falls).map(move |byte| [&name[..], &[*byte]].concat()).collect::<Vec<_>>()
    })
}

/// Identifiers that fall into the first bucket, four letters and some more: from each of its tags so many letters back, where four letters from
/// the start on come to the same.
fn far(start: u32, slots: u32, back: u32) -> impl Iterator<Item = Vec<u8>> {
    let tag = |n: &usize| name(*n, 4).iter().fold(start, |tag, byte| mixed(tag, *byte));
    let mut ahead: Vec<(u32, u32)> = (0..54 * 64usize.pow(3)).map(|n| (tag(&n), n as u32)).collect();
    ahead.sort();
    // Where the tags with these first 22 bits begin.
    let mut starts = vec![0u32; (1 << 22) + 1];
    ahead.iter().for_each(|(tag, _)| starts[(tag >> 10) as usize + 1] += 1);
    (0..1 << 22).for_each(|i| starts[i + 1] += starts[i]);
    let tags = (0..=u32::MAX).filter(move |tag| bucket(*tag, slots) == 0);
    let ends = move |tag| (0..64usize.pow(back)).map(move |n| (tag, n));
    tags.flat_map(ends).flat_map(move |(tag, n)| {
        let last: Vec<u8> = (0..back).map(|place| LETTERS[n >> (6 * place) & 63]).collect();
        let middle = last.iter().rev().fold(unfinished(tag), |tag, byte| before(tag, *byte));
        let near = starts[(middle >> 10) as usize] as usize..starts[(middle >> 10) as usize + 1] as usize;
        let same = ahead[near].iter().filter(move |(tag, _)| *tag == middle);
        same.map(move |(_, n)| [&name(*n as usize, 4)[..], &last].concat()).collect::<Vec<_>>()
    })
}

/// One object of about `size` bytes: `before` keys as they come, then keys that fall into one bucket of a table of so many slots, in the
/// window that begins with the first of them; for no slots, keys of one tag. The first `shared` letters of all of these are the same.
pub fn text(size: usize, before: usize, slots: u32, shared: usize) -> Vec<u8> {
    let mut text = b"{".to_vec();
    for n in 0..before {
        text.extend(format!("\"{n}\":1,").bytes());
    }
    let salt = if before == 0 { 0 } else { text.len() as u32 };
    let front = vec![b'k'; shared];
    let start = front.iter().fold(seeded(salt), |tag, byte| mixed(tag, *byte));
    let keys: Box<dyn Iterator<Item = Vec<u8>>> = match slots {
        0 => Box::new(far(start, slots, 5)),
        1..=128 => Box::new(near(start, slots)),
        _ => Box::new(far(start, slots, 3)),
    };
    for key in keys {
        if text.len() + shared + key.len() + 4 > size {
            break;
        }
        text.extend(&front);
        text.extend(key);
        text.extend(b":1,");
    }
    text.push(b'}');
    text
}
