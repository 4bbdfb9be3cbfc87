//! Other implementations of commitment and whole opening, for the benchmark:
//! shared libraries that `bench/run` builds from `bench/opening.h` and a file
//! of arithmetic.

use reference::types::{Residue, Settings};
use std::ffi::{c_char, c_int, c_void, CStr, CString};

extern "C" {
    fn dlopen(path: *const c_char, flags: c_int) -> *mut c_void;
    fn dlsym(library: *mut c_void, name: *const c_char) -> *mut c_void;
    fn dlerror() -> *const c_char;
}

type Prepare =
    unsafe extern "C" fn(u32, u32, u64, u32, *const u64, *const i32, *const u32) -> *mut c_void;
type Commit = unsafe extern "C" fn(*mut c_void, *mut u64) -> u32;
type Open = unsafe extern "C" fn(*mut c_void, *mut u64, *mut u64, *mut i32) -> u32;
type Release = unsafe extern "C" fn(*mut c_void);

/// A library that was loaded; it stays loaded.
pub struct Baseline {
    pub name: String,
    /// The moduli that it is measured with: 1 for 2^31 − 1, 2 for 2^61 − 1, 4
    /// for 12289, added up.
    pub moduli: u32,
    prepare: Prepare,
    commit: Commit,
    open: Open,
    release: Release,
}

/// Key and message in the form that the library works on.
pub struct Prepared<'a> {
    baseline: &'a Baseline,
    tables: *mut c_void,
}

impl Baseline {
    /// Loads a library, which must be one that `bench/run` has built: nothing
    /// tests its functions' types.
    pub fn load(path: &str) -> Result<Baseline, String> {
        const NOW: c_int = 2;
        let file = CString::new(path).map_err(|e| e.to_string())?;
        unsafe {
            let library = dlopen(file.as_ptr(), NOW);
            if library.is_null() {
                return Err(CStr::from_ptr(dlerror()).to_string_lossy().into_owned());
            }
            let symbol = |name: &CStr| match dlsym(library, name.as_ptr()) {
                found if found.is_null() => Err(format!("{path} has no {name:?}")),
                found => Ok(found),
            };
            let name: extern "C" fn() -> *const c_char =
                std::mem::transmute(symbol(c"baseline_name")?);
            let moduli: extern "C" fn() -> u32 = std::mem::transmute(symbol(c"baseline_moduli")?);
            Ok(Baseline {
                moduli: moduli(),
                name: CStr::from_ptr(name()).to_string_lossy().into_owned(),
                prepare: std::mem::transmute::<*mut c_void, Prepare>(symbol(c"baseline_prepare")?),
                commit: std::mem::transmute::<*mut c_void, Commit>(symbol(c"baseline_commit")?),
                open: std::mem::transmute::<*mut c_void, Open>(symbol(c"baseline_open")?),
                release: std::mem::transmute::<*mut c_void, Release>(symbol(c"baseline_release")?),
            })
        }
    }

    /// Takes tables over; the challenges stay lent.
    pub fn prepare<'a>(
        &'a self,
        s: Settings,
        key: &[Residue],
        message: &[i32],
        challenges: &'a [u32],
    ) -> Prepared<'a> {
        let (key, message, challenges) = (key.as_ptr(), message.as_ptr(), challenges.as_ptr());
        let tables = unsafe {
            (self.prepare)(
                s.degree, s.depth, s.modulus, s.bound, key, message, challenges,
            )
        };
        Prepared {
            baseline: self,
            tables,
        }
    }
}

impl Prepared<'_> {
    /// Writes d coefficients; 0 says that nothing was refused.
    pub fn commit(&mut self, commitment: &mut [Residue]) -> u32 {
        let refusal = unsafe { (self.baseline.commit)(self.tables, commitment.as_mut_ptr()) };
        clear_upper_halves();
        refusal
    }

    /// Writes 3·L·d coefficients of rounds, and d each of the others.
    pub fn open(
        &mut self,
        rounds: &mut [Residue],
        commitment: &mut [Residue],
        last: &mut [i32],
    ) -> u32 {
        let (rounds, commitment) = (rounds.as_mut_ptr(), commitment.as_mut_ptr());
        let refusal =
            unsafe { (self.baseline.open)(self.tables, rounds, commitment, last.as_mut_ptr()) };
        clear_upper_halves();
        refusal
    }
}

/// Clears the upper halves of the vector registers, as the platform's convention asks of whoever used them. A library that leaves numbers there, as FLINT does, makes
/// the next code for plain x86-64 take several times as long, since its instructions keep what stands there.
fn clear_upper_halves() {
    if std::arch::is_x86_feature_detected!("avx") {
        unsafe { std::arch::asm!("vzeroupper", options(nomem, nostack, preserves_flags)) }
    }
}

impl Drop for Prepared<'_> {
    fn drop(&mut self) {
        unsafe { (self.baseline.release)(self.tables) }
    }
}
