//! embedded PORT ORIGIN=FILE..: answers DNS over UDP and TCP on 127.0.0.1, by the library ningkraet, for trying it out: one TCP client after
//! the other. rustc --edition 2024 embedded.rs -L FOLDER/lib -l static=ningkraet -l static=ningkraet_heap; `./build ningkraet` makes FOLDER.
use std::io::{Read, Write};
use std::net::{TcpListener, TcpStream, UdpSocket};
use std::time::{Duration, SystemTime, UNIX_EPOCH};
use std::{env, fs, io, ptr, thread};

/// Zones of the library, which the header lets go from thread to thread, for one call at a time.
#[repr(C)]
struct Zones(*mut u8);
unsafe impl Send for Zones {}

unsafe extern "C" {
    fn nk_zones_new(zones: *mut Zones) -> u32;
    fn nk_zones_copy(zones: *mut Zones, other: *mut Zones) -> u32;
    fn nk_zones_load(z: *mut Zones, origin: *const u8, n: usize, text: *const u8, m: usize, room: *mut u8, k: usize, w: *mut usize) -> u32;
    fn nk_zones_answer(z: *mut Zones, now: u64, query: *const u8, n: usize, limit: usize, by: u32, room: *mut u8, k: usize, w: *mut usize) -> u32;
}

impl Zones {
    fn load(&mut self, origin: &str, path: &str) {
        let (text, mut room, mut written, o) = (fs::read(path).expect("a zone file"), [0u8; 4096], 0, origin.as_ptr());
        let code = unsafe { nk_zones_load(self, o, origin.len(), text.as_ptr(), text.len(), room.as_mut_ptr(), 4096, &mut written) };
        assert_eq!(code, 0, "{}", String::from_utf8_lossy(&room[..written]));
    }

    /// The octets of the response to a query by UDP (0) or TCP (1), if there is one.
    fn answer<'r>(&mut self, query: &[u8], by: u32, room: &'r mut [u8; 65535]) -> Option<&'r [u8]> {
        let (now, mut written) = (SystemTime::now().duration_since(UNIX_EPOCH).map_or(0, |it| it.as_secs()), 0);
        let code = unsafe { nk_zones_answer(self, now, query.as_ptr(), query.len(), 1232, by, room.as_mut_ptr(), room.len(), &mut written) };
        (code == 0).then(|| &room[..written])
    }
}

fn serve_stream(zones: &mut Zones, mut stream: TcpStream, room: &mut [u8; 65535]) -> io::Result<()> {
    let mut length = [0; 2];
    stream.set_read_timeout(Some(Duration::from_secs(2)))?;
    while stream.read_exact(&mut length).is_ok() {
        let mut query = vec![0; u16::from_be_bytes(length) as usize];
        stream.read_exact(&mut query)?;
        if let Some(response) = zones.answer(&query, 1, room) {
            stream.write_all(&[&(response.len() as u16).to_be_bytes(), response].concat())?;
        }
    }
    Ok(())
}

fn main() -> io::Result<()> {
    let (words, mut query, mut room) = (env::args().collect::<Vec<_>>(), [0; 4096], [0; 65535]);
    let here = ("127.0.0.1", words[1].parse().expect("a port"));
    let (datagrams, listener, mut zones, mut of_streams) = (UdpSocket::bind(here)?, TcpListener::bind(here)?, Zones(ptr::null_mut()), Zones(ptr::null_mut()));
    assert_eq!(unsafe { nk_zones_new(&mut zones) }, 0);
    words[2..].iter().filter_map(|word| word.split_once('=')).for_each(|(origin, path)| zones.load(origin, path));
    assert_eq!(unsafe { nk_zones_copy(&mut zones, &mut of_streams) }, 0);
    thread::spawn(move || listener.incoming().flatten().for_each(|stream| drop(serve_stream(&mut of_streams, stream, &mut [0; 65535]))));
    while let Ok((length, client)) = datagrams.recv_from(&mut query) {
        zones.answer(&query[..length], 0, &mut room).map(|response| datagrams.send_to(response, client));
    }
    Ok(())
}
