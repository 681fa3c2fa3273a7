//! The C interface: `naupelys.h` and `naupelys_host.h`.

extern "C" {
    // naupelys.h
    pub fn naupelys_power_on(
        state: *mut u8,
        state_size: usize,
        picture: *mut u8,
        picture_size: usize,
        font: *const u8,
        font_size: usize,
        said: *mut u8,
    ) -> u8;
    pub fn naupelys_line(
        state: *mut u8,
        state_size: usize,
        piece: *const u8,
        piece_size: usize,
        picture: *mut u8,
        picture_size: usize,
        font: *const u8,
        font_size: usize,
        list: *mut u8,
        list_size: usize,
        reply: *mut u8,
        reply_size: usize,
        faults: *mut u8,
        faults_size: usize,
        said: *mut u8,
    ) -> u8;
    pub fn naupelys_key(
        state: *mut u8,
        state_size: usize,
        key: u32,
        down: bool,
        reply: *mut u8,
        reply_size: usize,
        said: *mut u8,
    ) -> u8;
    pub fn naupelys_pin(state: *mut u8, state_size: usize, pin: u32, high: bool, said: *mut u8) -> u8;
    pub fn naupelys_symbol_cells(
        state: *const u8,
        state_size: usize,
        glyph: u32,
        list: *mut u8,
        list_size: usize,
        said: *mut u8,
    ) -> u8;

    // naupelys_host.h
    pub fn naupelys_compose(
        code: u32,
        data: *const u8,
        data_size: usize,
        packet: *mut u8,
        packet_size: usize,
        said: *mut u8,
    ) -> u8;
    pub fn naupelys_read_reply(bytes: *const u8, size: usize, reading: *mut u8) -> u8;
    pub fn naupelys_compose_ping(
        data: *const u8,
        data_size: usize,
        packet: *mut u8,
        packet_size: usize,
        said: *mut u8,
    ) -> u8;
    pub fn naupelys_compose_flash(
        flash: *const u8,
        flash_size: usize,
        packet: *mut u8,
        packet_size: usize,
        said: *mut u8,
    ) -> u8;
    pub fn naupelys_compose_reboot(packet: *mut u8, packet_size: usize, said: *mut u8) -> u8;
    pub fn naupelys_compose_glyph(
        index: u8,
        rows: *const u8,
        rows_size: usize,
        packet: *mut u8,
        packet_size: usize,
        said: *mut u8,
    ) -> u8;
    pub fn naupelys_compose_memory(address: u8, packet: *mut u8, packet_size: usize, said: *mut u8) -> u8;
    pub fn naupelys_compose_cursor(column: u8, row: u8, packet: *mut u8, packet_size: usize, said: *mut u8) -> u8;
    pub fn naupelys_compose_style(style: u8, packet: *mut u8, packet_size: usize, said: *mut u8) -> u8;
    pub fn naupelys_compose_contrast(contrast: u8, packet: *mut u8, packet_size: usize, said: *mut u8) -> u8;
    pub fn naupelys_compose_backlight(backlight: u8, packet: *mut u8, packet_size: usize, said: *mut u8) -> u8;
    pub fn naupelys_compose_masks(press: u8, release: u8, packet: *mut u8, packet_size: usize, said: *mut u8) -> u8;
    pub fn naupelys_compose_text(
        column: u8,
        row: u8,
        text: *const u8,
        text_size: usize,
        packet: *mut u8,
        packet_size: usize,
        said: *mut u8,
    ) -> u8;
    pub fn naupelys_compose_pin(pin: u8, level: u8, packet: *mut u8, packet_size: usize, said: *mut u8) -> u8;
    pub fn naupelys_compose_pin_config(
        pin: u8,
        level: u8,
        config: u8,
        packet: *mut u8,
        packet_size: usize,
        said: *mut u8,
    ) -> u8;
    pub fn naupelys_compose_read_pin(pin: u8, packet: *mut u8, packet_size: usize, said: *mut u8) -> u8;
    pub fn naupelys_recording_next(
        recording: *const u8,
        recording_size: usize,
        place: *mut usize,
        kind: *mut u8,
        start: *mut usize,
        length: *mut usize,
    ) -> u8;
}
