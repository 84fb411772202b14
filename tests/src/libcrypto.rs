//! ChaCha20 of OpenSSL: libcrypto, loaded at run time, or else the command openssl.

use std::ffi::{c_char, c_int, c_void, CString};
use std::io::Write;
use std::mem::transmute;
use std::process::{Command, Stdio};
use std::ptr::null_mut;

extern "C" {
    fn dlopen(name: *const c_char, flags: c_int) -> *mut c_void;
    fn dlsym(library: *mut c_void, name: *const c_char) -> *mut c_void;
}

const RTLD_NOW: c_int = 2;

type New = unsafe extern "C" fn() -> *mut c_void;
type Free = unsafe extern "C" fn(*mut c_void);
type Init = unsafe extern "C" fn(*mut c_void, *const c_void, *mut c_void, *const u8, *const u8) -> c_int;
type Update = unsafe extern "C" fn(*mut c_void, *mut u8, *mut c_int, *const u8, c_int) -> c_int;

/// Where the key stream comes from.
pub enum Stream {
    Library { cipher: New, new: New, free: Free, init: Init, update: Update },
    Program,
}

fn symbol(library: *mut c_void, name: &str) -> Option<*mut c_void> {
    let name = CString::new(name).ok()?;
    let found = unsafe { dlsym(library, name.as_ptr()) };
    (!found.is_null()).then_some(found)
}

/// The functions of one libcrypto.
fn load(name: &str) -> Option<Stream> {
    let name = CString::new(name).ok()?;
    let library = unsafe { dlopen(name.as_ptr(), RTLD_NOW) };
    if library.is_null() {
        return None;
    }
    unsafe {
        Some(Stream::Library {
            cipher: transmute::<*mut c_void, New>(symbol(library, "EVP_chacha20")?),
            new: transmute::<*mut c_void, New>(symbol(library, "EVP_CIPHER_CTX_new")?),
            free: transmute::<*mut c_void, Free>(symbol(library, "EVP_CIPHER_CTX_free")?),
            init: transmute::<*mut c_void, Init>(symbol(library, "EVP_EncryptInit_ex")?),
            update: transmute::<*mut c_void, Update>(symbol(library, "EVP_EncryptUpdate")?),
        })
    }
}

impl Stream {
    /// An error where neither is there.
    pub fn find() -> Result<Stream, String> {
        let names = ["libcrypto.so.3", "libcrypto.so.1.1", "libcrypto.so"];
        if let Some(stream) = names.iter().find_map(|name| load(name)) {
            return Ok(stream);
        }
        let version = Command::new("openssl").arg("version").stdout(Stdio::null()).stderr(Stdio::null()).status();
        match version {
            Ok(status) if status.success() => Ok(Stream::Program),
            _ => Err("neither libcrypto nor the command openssl is there: the key stream is not compared".to_string()),
        }
    }

    /// So many bytes of the stream of a key, from block 0 on.
    pub fn bytes(&self, key: &[u8; 32], nonce: &[u8; 12], length: usize) -> Result<Vec<u8>, String> {
        // The block counter, lowest byte first, then the nonce.
        let start = [&[0; 4], &nonce[..]].concat();
        let stream = match self {
            Stream::Program => program(key, &start, length),
            Stream::Library { .. } => self.library(key, &start, length),
        };
        stream.filter(|bytes| bytes.len() == length).ok_or("OpenSSL gives no ChaCha20 stream".to_string())
    }

    fn library(&self, key: &[u8; 32], start: &[u8], length: usize) -> Option<Vec<u8>> {
        let Stream::Library { cipher, new, free, init, update } = self else {
            return None;
        };
        let (zeros, mut out, mut written) = (vec![0; length], vec![0; length], 0);
        let done = unsafe {
            let context = new();
            let done = init(context, cipher(), null_mut(), key.as_ptr(), start.as_ptr()) == 1
                && update(context, out.as_mut_ptr(), &mut written, zeros.as_ptr(), length as c_int) == 1;
            free(context);
            done
        };
        (done && written as usize == length).then_some(out)
    }
}

/// The stream by the command: zeros, encrypted.
fn program(key: &[u8; 32], start: &[u8], length: usize) -> Option<Vec<u8>> {
    let hex = |bytes: &[u8]| bytes.iter().map(|byte| format!("{byte:02x}")).collect::<String>();
    let mut command = Command::new("openssl");
    command.args(["enc", "-chacha20", "-K", &hex(key), "-iv", &hex(start)]);
    let mut child = command.stdin(Stdio::piped()).stdout(Stdio::piped()).stderr(Stdio::null()).spawn().ok()?;
    child.stdin.take()?.write_all(&vec![0; length]).ok()?;
    Some(child.wait_with_output().ok()?.stdout)
}
