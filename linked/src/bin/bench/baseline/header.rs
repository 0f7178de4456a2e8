//! The header of a message: 58 bytes.

use super::fields::{be16, be64, is_text, part, put16, put64, put_text12, put_text20, read_field};

pub struct HeaderRead {
    pub number: u8,
    pub version: u16,
    pub type_len: usize,
    pub name_len: usize,
    pub time_stamp: u64,
    pub body_size: usize,
    pub crc: u64,
    pub clean: bool,
}

pub struct HeaderFields {
    pub version: u16,
    pub time_stamp: u64,
    pub body_size: usize,
    pub crc: u64,
}

fn size_at(stream: &[u8]) -> usize {
    be64(stream, 42) as usize
}

fn limit_fault(size: usize) -> u8 {
    if size <= 16_777_216 {
        0
    } else {
        3
    }
}

fn fields_fault(texts_ok: bool, body_size: usize) -> u8 {
    if !texts_ok {
        return 2;
    }
    limit_fault(body_size)
}

fn refused(number: u8) -> HeaderRead {
    HeaderRead {
        number,
        version: 0,
        type_len: 0,
        name_len: 0,
        time_stamp: 0,
        body_size: 0,
        crc: 0,
        clean: false,
    }
}

fn handed(stream: &[u8], type_len: usize, name_len: usize, clean: bool) -> HeaderRead {
    HeaderRead {
        number: 0,
        version: be16(stream, 0),
        type_len,
        name_len,
        time_stamp: be64(stream, 34),
        body_size: size_at(stream),
        crc: be64(stream, 50),
        clean,
    }
}

pub fn read_header(stream: &[u8]) -> HeaderRead {
    if stream.len() < 58 {
        return refused(1);
    }
    let type_field = read_field(part(stream, 2, 12));
    let name_field = read_field(part(stream, 14, 20));
    let fault = fields_fault(type_field.ok && name_field.ok, size_at(stream));
    if fault != 0 {
        return refused(fault);
    }
    let clean = type_field.clean && name_field.clean;
    handed(stream, type_field.len, name_field.len, clean)
}

pub fn names_fault(type_text: &[u8], device_name: &[u8]) -> u8 {
    let fits = type_text.len() <= 12 && device_name.len() <= 20;
    if fits && is_text(type_text) && is_text(device_name) {
        0
    } else {
        2
    }
}

fn write_fault(header: &HeaderFields, type_text: &[u8], device_name: &[u8], room: usize) -> u8 {
    let names = names_fault(type_text, device_name);
    if names != 0 {
        return names;
    }
    let limit = limit_fault(header.body_size);
    if limit != 0 {
        return limit;
    }
    if 58 <= room {
        0
    } else {
        20
    }
}

fn put_header(header: &HeaderFields, type_text: &[u8], device_name: &[u8], out: &mut [u8]) {
    put16(header.version, 0, out);
    put_text12(type_text, 2, out);
    put_text20(device_name, 14, out);
    put64(header.time_stamp, 34, out);
    put64(header.body_size as u64, 42, out);
    put64(header.crc, 50, out);
}

pub fn write_header(
    header: &HeaderFields,
    type_text: &[u8],
    device_name: &[u8],
    out: &mut [u8],
) -> Result<usize, u8> {
    let fault = write_fault(header, type_text, device_name, out.len());
    if fault != 0 {
        return Err(fault);
    }
    put_header(header, type_text, device_name, out);
    Ok(58)
}
