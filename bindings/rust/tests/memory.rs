// SPDX-License-Identifier: Apache-2.0
//! Each request of the library for memory is refused in turn: nothing is written then, and the
//! error says why. This needs glibc, which lets a program have its own `malloc`.
#![cfg(all(feature = "alloc", target_os = "linux", target_env = "gnu"))]

mod common;

use core::cell::Cell;
use core::ffi::c_void;
use davgyuti::{OutputError, Packet};

unsafe extern "C" {
    fn __libc_malloc(size: usize) -> *mut c_void;
    fn __libc_realloc(block: *mut c_void, size: usize) -> *mut c_void;
}

thread_local! {
    /// How many requests of this thread are granted before one is refused; none is by default.
    static GRANTED: Cell<Option<usize>> = const { Cell::new(None) };
}

fn is_refused() -> bool {
    let granted = GRANTED.get();
    GRANTED.set(granted.and_then(|it| it.checked_sub(1)));
    granted == Some(0)
}

#[unsafe(no_mangle)]
extern "C" fn malloc(size: usize) -> *mut c_void {
    // SAFETY: it takes any size.
    if is_refused() { core::ptr::null_mut() } else { unsafe { __libc_malloc(size) } }
}

/// # Safety
/// `block` is null, or of `malloc` or this.
#[unsafe(no_mangle)]
unsafe extern "C" fn realloc(block: *mut c_void, size: usize) -> *mut c_void {
    // SAFETY: as the caller's.
    if is_refused() { core::ptr::null_mut() } else { unsafe { __libc_realloc(block, size) } }
}

/// Calls `write` until no request is refused: the first, then the second, and so on. Returns what it
/// returns then, and how many requests it made.
#[track_caller]
fn refused<T>(mut write: impl FnMut() -> Result<T, OutputError>) -> (T, usize) {
    let mut requests = 0;
    loop {
        GRANTED.set(Some(requests));
        let result = write();
        GRANTED.set(None);
        match result {
            Ok(written) => return (written, requests),
            Err(error) => assert_eq!(error, OutputError::OutOfMemory),
        }
        requests += 1;
    }
}

#[test]
fn refusals() {
    for bytes in common::examples() {
        let Ok(packet) = Packet::parse(&bytes) else { continue };
        let (text, report) = (packet.to_text().unwrap(), packet.to_report().unwrap());
        let canonical = packet.to_canonical().unwrap();

        // All requests are the library's, and the output stays as it is.
        let mut output = [0xaa; 8192];
        let (size, requests) = refused(|| {
            let result = packet.write_text(&mut output).map(str::len);
            assert!(result.is_ok() || output == [0xaa; 8192]);
            result
        });
        assert_eq!((&output[..size], requests > 0), (text.as_bytes(), true));
        let written = refused(|| packet.write_canonical(&mut output).map(|it| it.len()));
        assert_eq!(written, (canonical.len(), 0));
        let written = refused(|| packet.write_report(&mut output).map(str::len));
        assert_eq!(written, (report.len(), 0));

        // A packet or a chunk that is kept makes one request, that of its Box.
        GRANTED.set(Some(9));
        let owned = packet.into_owned();
        let is_same = owned.as_packet() == packet;
        assert_eq!((GRANTED.replace(None), is_same), (Some(8), true));
        for chunk in &packet {
            GRANTED.set(Some(9));
            let owned = chunk.into_owned();
            let is_same = owned.as_chunk() == chunk;
            assert_eq!((GRANTED.replace(None), is_same), (Some(8), true));
        }

        // One request more is that of the Vec or the String.
        assert!(refused(|| packet.to_text()).0 == text);
        assert_eq!(refused(|| packet.to_canonical()), (canonical, 1));
        assert_eq!(refused(|| packet.to_report()), (report, 1));
    }
}
