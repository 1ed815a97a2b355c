//! Wrong writers.

use compare::c_writer;
use compare::image::{read, write};
use compare::library::{Library, Writer};
use compare::returned::{is_refused, is_refused_for, refused, value};
use compare::stand_in::{minimal_image, normal_form, plain_image, LIBRARY};
use reference::Reason;

const LONGEST_ANSWER: usize = 2_048;

/// The second implementation's answer, altered on the way into the room.
fn altered(
    writer: fn(&[u8], &mut [u8]) -> u64,
    word: &[u8],
    room: &mut [u8],
    alter: fn(Vec<u8>) -> Vec<u8>,
) -> u64 {
    let mut answer = vec![0; LONGEST_ANSWER];
    let returned = writer(word, &mut answer);
    if is_refused(returned) {
        return returned;
    }
    answer.truncate(returned as usize);
    let answer = alter(answer);
    match room.get_mut(..answer.len()) {
        Some(room) => room.copy_from_slice(&answer),
        None => return refused(Reason::RoomTooShort, answer.len()),
    }
    answer.len() as u64
}

/// Drops the last node of an image if it is an unmarked leaf.
fn without_last_branch(image: Vec<u8>) -> Vec<u8> {
    let mut records = read(&image);
    match records.last().copied() {
        Some(last) if last.mark == 0 && records.len() > 1 => {
            records.pop();
            records[last.parent].children -= 1;
            write(&records)
        }
        _ => image,
    }
}

/// Orders the children of a star by number instead of by bytes.
fn in_number_order(image: Vec<u8>) -> Vec<u8> {
    let mut records = read(&image);
    if !records.is_empty() && records[0].children as usize == records.len() - 1 {
        records[1..].sort_by_key(|record| (record.label_code, record.mark));
    }
    write(&records)
}

fn with_plain_image(name: &'static str, plain_image: Writer) -> Library {
    Library {
        name,
        plain_image,
        ..LIBRARY
    }
}

fn with_minimal_image(name: &'static str, minimal_image: Writer) -> Library {
    Library {
        name,
        minimal_image,
        ..LIBRARY
    }
}

fn with_normal_form(name: &'static str, normal_form: Writer) -> Library {
    Library {
        name,
        normal_form,
        ..LIBRARY
    }
}

pub fn all() -> Vec<Library> {
    [idle(), answers(), lengths(), refusals()].concat()
}

/// The idle versions that the specification names.
fn idle() -> Vec<Library> {
    vec![
        with_plain_image(
            "refuses all words",
            c_writer!(|_, _| refused(Reason::NotOneOperand, 0)),
        ),
        with_minimal_image(
            "always empty",
            c_writer!(|word, room| altered(minimal_image, word, room, |_| vec![0])),
        ),
        with_normal_form(
            "hands the word back",
            c_writer!(
                |word, room| match normal_form(word, &mut [0; LONGEST_ANSWER]) {
                    returned if is_refused(returned) => returned,
                    _ if room.len() < word.len() => refused(Reason::RoomTooShort, word.len()),
                    _ => {
                        room[..word.len()].copy_from_slice(word);
                        word.len() as u64
                    }
                }
            ),
        ),
        with_normal_form(
            "returns another length",
            c_writer!(|word, room| match normal_form(word, room) {
                returned if is_refused(returned) => returned,
                length => length + 1,
            }),
        ),
    ]
}

fn answers() -> Vec<Library> {
    vec![
        with_minimal_image("never folds", c_writer!(plain_image)),
        with_plain_image("folds at once", c_writer!(minimal_image)),
        with_minimal_image(
            "drops a branch",
            c_writer!(|word, room| altered(minimal_image, word, room, without_last_branch)),
        ),
        with_plain_image(
            "orders by number",
            c_writer!(|word, room| altered(plain_image, word, room, in_number_order)),
        ),
        with_normal_form(
            "cancels parent and child",
            c_writer!(|word, room| altered(normal_form, word, room, |form| {
                match form.as_slice() {
                    [3, 2, 4] => vec![1],
                    _ => form,
                }
            })),
        ),
    ]
}

/// What is written besides the answer.
fn lengths() -> Vec<Library> {
    vec![
        with_plain_image(
            "writes a byte behind the answer",
            c_writer!(|word, room| {
                let returned = plain_image(word, room);
                if let Some(behind) = room.get_mut(returned as usize) {
                    *behind ^= u8::from(!is_refused(returned));
                }
                returned
            }),
        ),
        with_normal_form("writes behind the room", behind_the_room),
        with_plain_image("writes to the word", into_the_word),
        with_minimal_image(
            "fills a room that is too short",
            c_writer!(|word, room| {
                let mut answer = [0; LONGEST_ANSWER];
                let returned = minimal_image(word, &mut answer);
                if !is_refused(returned) && room.len() < returned as usize {
                    let length = room.len();
                    room.copy_from_slice(&answer[..length]);
                }
                minimal_image(word, room)
            }),
        ),
    ]
}

unsafe extern "C" fn behind_the_room(
    word: *const u8,
    word_len: usize,
    room: *mut u8,
    room_len: usize,
) -> u64 {
    // The comparison guards its rooms, the corpus lends from a larger buffer.
    let returned = (LIBRARY.normal_form)(word, word_len, room, room_len);
    if is_refused_for(returned, Reason::RoomTooShort) && (1..1_000).contains(&room_len) {
        *room.add(room_len) ^= 1;
    }
    returned
}

unsafe extern "C" fn into_the_word(
    word: *const u8,
    word_len: usize,
    room: *mut u8,
    room_len: usize,
) -> u64 {
    let returned = (LIBRARY.plain_image)(word, word_len, room, room_len);
    if word_len > 0 {
        let first = word.cast_mut();
        *first ^= 1;
    }
    returned
}

fn refusals() -> Vec<Library> {
    vec![
        with_plain_image(
            "wrong place of a bad number",
            c_writer!(|word, room| match plain_image(word, room) {
                returned if is_refused_for(returned, Reason::BadNumber) => returned + 1,
                returned => returned,
            }),
        ),
        with_minimal_image(
            "needs a byte more than the answer",
            c_writer!(|word, room| match minimal_image(word, room) {
                returned if is_refused_for(returned, Reason::RoomTooShort) => returned + 1,
                returned => returned,
            }),
        ),
        with_normal_form(
            "5 before 4",
            c_writer!(|word, room| match normal_form(word, room) {
                returned if is_refused_for(returned, Reason::TooManyPending) && word[256] == 2 => {
                    refused(Reason::TooManySteps, value(returned))
                }
                returned => returned,
            }),
        ),
        with_plain_image(
            "refuses words of 4,096 bytes",
            c_writer!(|word, room| match word.len() {
                4_096.. => refused(Reason::WordTooLong, 4_096),
                _ => plain_image(word, room),
            }),
        ),
    ]
}
