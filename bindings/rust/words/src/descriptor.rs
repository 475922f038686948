//! File descriptors for event loops.

/// A file descriptor for `poll` or `epoll`, which its last clone closes. It must only be polled.
#[cfg(target_os = "linux")]
#[derive(Clone, Debug)]
pub struct Descriptor(std::sync::Arc<std::fs::File>);

#[cfg(target_os = "linux")]
mod linux {
    use super::Descriptor;
    use std::fs::File;
    use std::io::{Error, Read, Write};
    use std::os::raw::{c_int, c_uint};
    use std::os::unix::io::{AsFd, AsRawFd, BorrowedFd, FromRawFd, OwnedFd, RawFd};
    use std::sync::Arc;

    extern "C" {
        fn eventfd(first: c_uint, flags: c_int) -> c_int;
    }

    impl Descriptor {
        /// One that is not readable.
        #[doc(hidden)]
        pub fn new() -> Result<Descriptor, Error> {
            // SAFETY: 0o2004000 is EFD_CLOEXEC and EFD_NONBLOCK. The descriptor is new, and nobody else's.
            let file = unsafe {
                match eventfd(0, 0o2_004_000) {
                    -1 => return Err(Error::last_os_error()),
                    fd => File::from_raw_fd(fd),
                }
            };
            Ok(Descriptor(Arc::new(file)))
        }

        /// Makes it readable.
        #[doc(hidden)]
        pub fn light(&self) {
            let _ = (&*self.0).write(&1u64.to_ne_bytes());
        }

        /// Makes it not readable.
        #[doc(hidden)]
        pub fn dim(&self) {
            let _ = (&*self.0).read(&mut [0; 8]);
        }
    }

    impl From<OwnedFd> for Descriptor {
        fn from(fd: OwnedFd) -> Descriptor {
            Descriptor(Arc::new(fd.into()))
        }
    }

    impl AsFd for Descriptor {
        fn as_fd(&self) -> BorrowedFd<'_> {
            self.0.as_fd()
        }
    }

    impl AsRawFd for Descriptor {
        fn as_raw_fd(&self) -> RawFd {
            self.0.as_raw_fd()
        }
    }
}

/// Elsewhere there is none.
#[cfg(not(target_os = "linux"))]
#[derive(Clone, Debug)]
pub enum Descriptor {}

#[cfg(not(target_os = "linux"))]
impl Descriptor {
    /// Does nothing.
    #[doc(hidden)]
    pub fn light(&self) {}
    /// Does nothing.
    #[doc(hidden)]
    pub fn dim(&self) {}
}
