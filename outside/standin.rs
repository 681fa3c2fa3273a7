//! The readings in the library's place, behind `naupelys.h` and `naupelys_host.h`. `outside/selfcheck` changes one rule in
//! them at a time.

#[allow(dead_code)]
#[path = "changed_host.rs"]
mod host_reading;
#[allow(dead_code)]
#[path = "changed.rs"]
mod reading;
#[allow(dead_code)]
#[path = "changed_recording.rs"]
mod recording_reading;

use std::slice::{from_raw_parts, from_raw_parts_mut};

/// "a pointer whose length is 0 is not followed".
unsafe fn lent<'a>(pointer: *mut u8, size: usize) -> &'a mut [u8] {
    if size == 0 {
        &mut []
    } else {
        from_raw_parts_mut(pointer, size)
    }
}

unsafe fn given<'a>(pointer: *const u8, size: usize) -> &'a [u8] {
    if size == 0 {
        &[]
    } else {
        from_raw_parts(pointer, size)
    }
}

unsafe fn answer<'a>(said: *mut u8) -> &'a mut [u8; 16] {
    &mut *said.cast()
}

/// # Safety
/// As `naupelys.h` says.
#[no_mangle]
pub unsafe extern "C" fn naupelys_power_on(
    state: *mut u8,
    state_size: usize,
    picture: *mut u8,
    picture_size: usize,
    font: *const u8,
    font_size: usize,
    said: *mut u8,
) -> u8 {
    reading::power_on(lent(state, state_size), lent(picture, picture_size), given(font, font_size), answer(said))
}

/// # Safety
/// As `naupelys.h` says.
#[no_mangle]
pub unsafe extern "C" fn naupelys_line(
    state: *mut u8,
    state_size: usize,
    piece: *const u8,
    piece_size: usize,
    picture: *mut u8,
    picture_size: usize,
    font: *const u8,
    font_size: usize,
    list: *mut u8,
    list_size: usize,
    reply: *mut u8,
    reply_size: usize,
    faults: *mut u8,
    faults_size: usize,
    said: *mut u8,
) -> u8 {
    reading::line(
        lent(state, state_size),
        given(piece, piece_size),
        lent(picture, picture_size),
        given(font, font_size),
        lent(list, list_size),
        lent(reply, reply_size),
        lent(faults, faults_size),
        answer(said),
    )
}

/// # Safety
/// As `naupelys.h` says.
#[no_mangle]
pub unsafe extern "C" fn naupelys_key(
    state: *mut u8,
    state_size: usize,
    key: u32,
    down: bool,
    reply: *mut u8,
    reply_size: usize,
    said: *mut u8,
) -> u8 {
    reading::key(lent(state, state_size), key, down, lent(reply, reply_size), answer(said))
}

/// # Safety
/// As `naupelys.h` says.
#[no_mangle]
pub unsafe extern "C" fn naupelys_pin(state: *mut u8, state_size: usize, pin: u32, high: bool, said: *mut u8) -> u8 {
    reading::pin(lent(state, state_size), pin, high, answer(said))
}

/// # Safety
/// As `naupelys.h` says.
#[no_mangle]
pub unsafe extern "C" fn naupelys_symbol_cells(
    state: *const u8,
    state_size: usize,
    glyph: u32,
    list: *mut u8,
    list_size: usize,
    said: *mut u8,
) -> u8 {
    reading::symbol_cells(given(state, state_size), glyph, lent(list, list_size), answer(said))
}

/// # Safety
/// As `naupelys_host.h` says.
#[no_mangle]
pub unsafe extern "C" fn naupelys_read_reply(bytes: *const u8, size: usize, reading: *mut u8) -> u8 {
    let (number, values) = host_reading::read_reply(given(bytes, size));
    *reading.cast() = values;
    number
}

unsafe fn say(said: *mut u8, what: [u8; 16]) -> u8 {
    *answer(said) = what;
    what[0]
}

/// # Safety
/// As `naupelys_host.h` says.
#[no_mangle]
pub unsafe extern "C" fn naupelys_compose(
    code: u32,
    data: *const u8,
    data_size: usize,
    packet: *mut u8,
    packet_size: usize,
    said: *mut u8,
) -> u8 {
    say(said, host_reading::compose(code, given(data, data_size), lent(packet, packet_size)))
}

/// # Safety
/// As `naupelys_host.h` says.
#[no_mangle]
pub unsafe extern "C" fn naupelys_compose_ping(
    data: *const u8,
    data_size: usize,
    packet: *mut u8,
    packet_size: usize,
    said: *mut u8,
) -> u8 {
    say(said, host_reading::compose_ping(given(data, data_size), lent(packet, packet_size)))
}

/// # Safety
/// As `naupelys_host.h` says.
#[no_mangle]
pub unsafe extern "C" fn naupelys_compose_flash(
    flash: *const u8,
    flash_size: usize,
    packet: *mut u8,
    packet_size: usize,
    said: *mut u8,
) -> u8 {
    say(said, host_reading::compose_flash(given(flash, flash_size), lent(packet, packet_size)))
}

/// # Safety
/// As `naupelys_host.h` says.
#[no_mangle]
pub unsafe extern "C" fn naupelys_compose_reboot(packet: *mut u8, packet_size: usize, said: *mut u8) -> u8 {
    say(said, host_reading::compose_reboot(lent(packet, packet_size)))
}

/// # Safety
/// As `naupelys_host.h` says.
#[no_mangle]
pub unsafe extern "C" fn naupelys_compose_glyph(
    index: u8,
    rows: *const u8,
    rows_size: usize,
    packet: *mut u8,
    packet_size: usize,
    said: *mut u8,
) -> u8 {
    say(said, host_reading::compose_glyph(index, given(rows, rows_size), lent(packet, packet_size)))
}

/// # Safety
/// As `naupelys_host.h` says.
#[no_mangle]
pub unsafe extern "C" fn naupelys_compose_memory(address: u8, packet: *mut u8, packet_size: usize, said: *mut u8) -> u8 {
    say(said, host_reading::compose_memory(address, lent(packet, packet_size)))
}

/// # Safety
/// As `naupelys_host.h` says.
#[no_mangle]
pub unsafe extern "C" fn naupelys_compose_cursor(
    column: u8,
    row: u8,
    packet: *mut u8,
    packet_size: usize,
    said: *mut u8,
) -> u8 {
    say(said, host_reading::compose_cursor(column, row, lent(packet, packet_size)))
}

/// # Safety
/// As `naupelys_host.h` says.
#[no_mangle]
pub unsafe extern "C" fn naupelys_compose_style(style: u8, packet: *mut u8, packet_size: usize, said: *mut u8) -> u8 {
    say(said, host_reading::compose_style(style, lent(packet, packet_size)))
}

/// # Safety
/// As `naupelys_host.h` says.
#[no_mangle]
pub unsafe extern "C" fn naupelys_compose_contrast(contrast: u8, packet: *mut u8, packet_size: usize, said: *mut u8) -> u8 {
    say(said, host_reading::compose_contrast(contrast, lent(packet, packet_size)))
}

/// # Safety
/// As `naupelys_host.h` says.
#[no_mangle]
pub unsafe extern "C" fn naupelys_compose_backlight(
    backlight: u8,
    packet: *mut u8,
    packet_size: usize,
    said: *mut u8,
) -> u8 {
    say(said, host_reading::compose_backlight(backlight, lent(packet, packet_size)))
}

/// # Safety
/// As `naupelys_host.h` says.
#[no_mangle]
pub unsafe extern "C" fn naupelys_compose_masks(
    press: u8,
    release: u8,
    packet: *mut u8,
    packet_size: usize,
    said: *mut u8,
) -> u8 {
    say(said, host_reading::compose_masks(press, release, lent(packet, packet_size)))
}

/// # Safety
/// As `naupelys_host.h` says.
#[no_mangle]
pub unsafe extern "C" fn naupelys_compose_text(
    column: u8,
    row: u8,
    text: *const u8,
    text_size: usize,
    packet: *mut u8,
    packet_size: usize,
    said: *mut u8,
) -> u8 {
    say(said, host_reading::compose_text(column, row, given(text, text_size), lent(packet, packet_size)))
}

/// # Safety
/// As `naupelys_host.h` says.
#[no_mangle]
pub unsafe extern "C" fn naupelys_compose_pin(pin: u8, level: u8, packet: *mut u8, packet_size: usize, said: *mut u8) -> u8 {
    say(said, host_reading::compose_pin(pin, level, lent(packet, packet_size)))
}

/// # Safety
/// As `naupelys_host.h` says.
#[no_mangle]
pub unsafe extern "C" fn naupelys_compose_pin_config(
    pin: u8,
    level: u8,
    config: u8,
    packet: *mut u8,
    packet_size: usize,
    said: *mut u8,
) -> u8 {
    say(said, host_reading::compose_pin_config(pin, level, config, lent(packet, packet_size)))
}

/// # Safety
/// As `naupelys_host.h` says.
#[no_mangle]
pub unsafe extern "C" fn naupelys_compose_read_pin(pin: u8, packet: *mut u8, packet_size: usize, said: *mut u8) -> u8 {
    say(said, host_reading::compose_read_pin(pin, lent(packet, packet_size)))
}

/// # Safety
/// As `naupelys_host.h` says.
#[no_mangle]
pub unsafe extern "C" fn naupelys_recording_next(
    recording: *const u8,
    recording_size: usize,
    place: *mut usize,
    kind: *mut u8,
    start: *mut usize,
    length: *mut usize,
) -> u8 {
    match recording_reading::next(given(recording, recording_size), *place) {
        Ok(packet) => {
            *place = packet.next;
            *kind = packet.kind;
            *start = packet.start;
            *length = packet.length;
            reading::DONE
        }
        Err(number) => number,
    }
}
