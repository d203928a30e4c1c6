//! Standard input, output and error. `println!` would panic where its output is full, so nothing here uses it.
use crate::files::reason;
use std::io::{self, Read, Write};

pub fn read() -> Result<Vec<u8>, String> {
    let mut bytes = Vec::new();
    let read = match closed::input() {
        true => Err(is_closed()),
        false => io::stdin().read_to_end(&mut bytes),
    };
    match read {
        Ok(_) => Ok(bytes),
        Err(e) => Err(format!("can't read standard input: {}", reason(&e))),
    }
}

pub fn print(bytes: &[u8]) -> Result<(), String> {
    let printed = match closed::output() {
        true => Err(is_closed()),
        false => put(bytes),
    };
    match printed {
        // The reader of a pipe may stop early, which is no error of ours.
        Err(e) if e.kind() != io::ErrorKind::BrokenPipe => {
            Err(format!("can't write standard output: {}", reason(&e)))
        }
        _ => Ok(()),
    }
}

/// What stays behind in standard output would be lost without a word at the end of the program.
fn put(bytes: &[u8]) -> io::Result<()> {
    let mut out = io::stdout().lock();
    out.write_all(bytes)?;
    out.flush()
}

/// Where standard error can't be written either, there is nobody left to tell; the exit status still does.
pub fn complain(text: &str) {
    let _ = io::stderr().write_all(text.as_bytes());
}

fn is_closed() -> io::Error {
    io::Error::other("it is closed")
}

/// Whether the caller closed standard input or output (`>&-`). Before `main`, Rust puts /dev/null in the place of what is closed:
/// a closed input would be an empty text, and what is written to a closed output lost without a word. So this is looked at
/// before Rust does so, as the program is loaded.
#[cfg(target_os = "linux")]
mod closed {
    use std::ffi::c_int;
    use std::sync::atomic::{AtomicBool, Ordering::Relaxed};

    static INPUT: AtomicBool = AtomicBool::new(false);
    static OUTPUT: AtomicBool = AtomicBool::new(false);

    const F_GETFD: c_int = 1;

    extern "C" {
        fn fcntl(file: c_int, command: c_int, ...) -> c_int;
    }

    extern "C" fn look() {
        // SAFETY: it asks for a number of the file and changes nothing; -1 says that there is no such file.
        let is_closed = |file| unsafe { fcntl(file, F_GETFD) } == -1;
        INPUT.store(is_closed(0), Relaxed);
        OUTPUT.store(is_closed(1), Relaxed);
    }

    /// The loader calls what stands in this section.
    #[used]
    #[link_section = ".init_array"]
    static LOOK: extern "C" fn() = look;

    pub fn input() -> bool {
        INPUT.load(Relaxed)
    }

    pub fn output() -> bool {
        OUTPUT.load(Relaxed)
    }
}

#[cfg(not(target_os = "linux"))]
mod closed {
    pub fn input() -> bool {
        false
    }

    pub fn output() -> bool {
        false
    }
}
