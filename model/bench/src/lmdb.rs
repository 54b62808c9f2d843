//! LMDB: a key-value store in mapped memory, here on a folder in memory and without sync.

use crate::baseline::word;
use crate::library::functions;
use crate::peer::Peer;
use std::ffi::{c_char, c_int, c_uint, c_void, CString};
use std::os::unix::ffi::OsStrExt;
use std::path::PathBuf;
use std::ptr::null_mut;

#[repr(C)]
struct Value {
    size: usize,
    data: *mut c_void,
}

type Handle = *mut c_void;

functions! {
    /// The functions of lmdb.h that are used.
    Functions from "liblmdb.so.0" {
        version: c"mdb_version" unsafe extern "C" fn(*mut c_int, *mut c_int, *mut c_int) -> *const c_char,
        env_create: c"mdb_env_create" unsafe extern "C" fn(*mut Handle) -> c_int,
        env_set_mapsize: c"mdb_env_set_mapsize" unsafe extern "C" fn(Handle, usize) -> c_int,
        env_open: c"mdb_env_open" unsafe extern "C" fn(Handle, *const c_char, c_uint, c_uint) -> c_int,
        env_close: c"mdb_env_close" unsafe extern "C" fn(Handle),
        txn_begin: c"mdb_txn_begin" unsafe extern "C" fn(Handle, Handle, c_uint, *mut Handle) -> c_int,
        txn_commit: c"mdb_txn_commit" unsafe extern "C" fn(Handle) -> c_int,
        txn_abort: c"mdb_txn_abort" unsafe extern "C" fn(Handle),
        txn_reset: c"mdb_txn_reset" unsafe extern "C" fn(Handle),
        txn_renew: c"mdb_txn_renew" unsafe extern "C" fn(Handle) -> c_int,
        dbi_open: c"mdb_dbi_open" unsafe extern "C" fn(Handle, *const c_char, c_uint, *mut c_uint) -> c_int,
        put: c"mdb_put" unsafe extern "C" fn(Handle, c_uint, *mut Value, *mut Value, c_uint) -> c_int,
        del: c"mdb_del" unsafe extern "C" fn(Handle, c_uint, *mut Value, *mut Value) -> c_int,
        get: c"mdb_get" unsafe extern "C" fn(Handle, c_uint, *mut Value, *mut Value) -> c_int,
    }
}

// Flags and answers of lmdb.h.
const INTEGER_KEY: c_uint = 0x08;
const NO_SYNC: c_uint = 0x1_0000;
const READ_ONLY: c_uint = 0x2_0000;
const WRITE_MAP: c_uint = 0x8_0000;
const NOT_FOUND: c_int = -30798;

/// A database in a folder of its own, which goes with it.
pub struct Lmdb {
    functions: Functions,
    folder: PathBuf,
    env: Handle,
    map: c_uint,
    read: Handle,
}

fn number(value: &mut u32) -> Value {
    Value { size: size_of::<u32>(), data: (value as *mut u32).cast() }
}

impl Lmdb {
    /// An empty database without sync, written in its mapped memory if so wanted; none where LMDB is not installed.
    pub fn open(write_map: bool) -> Option<Lmdb> {
        let functions = Functions::open()?;
        let folder =
            folder_in_memory().join(format!("cechnuol-benchmark-{}-{write_map}", std::process::id()));
        std::fs::create_dir(&folder).expect("a folder for LMDB");
        let path = CString::new(folder.as_os_str().as_bytes()).unwrap();
        let flags = NO_SYNC | if write_map { WRITE_MAP } else { 0 };
        let (mut env, mut txn, mut map, mut read) = (null_mut(), null_mut(), 0, null_mut());
        // Pointers to locals, for the time of each call; the handles stay open until the database is dropped.
        unsafe {
            assert_eq!((functions.env_create)(&mut env), 0);
            assert_eq!((functions.env_set_mapsize)(env, 64 << 20), 0);
            assert_eq!((functions.env_open)(env, path.as_ptr(), flags, 0o600), 0);
            assert_eq!((functions.txn_begin)(env, null_mut(), 0, &mut txn), 0);
            assert_eq!((functions.dbi_open)(txn, std::ptr::null(), INTEGER_KEY, &mut map), 0);
            assert_eq!((functions.txn_commit)(txn), 0);
            assert_eq!((functions.txn_begin)(env, null_mut(), READ_ONLY, &mut read), 0);
            (functions.txn_reset)(read);
        }
        Some(Lmdb { functions, folder, env, map, read })
    }

    /// The version that is installed.
    pub fn version() -> Option<String> {
        let functions = Functions::open()?;
        let (mut major, mut minor, mut patch) = (0, 0, 0);
        // The numbers go to three locals.
        unsafe { (functions.version)(&mut major, &mut minor, &mut patch) };
        Some(format!("LMDB {major}.{minor}.{patch}"))
    }
}

/// A folder that lies in memory, if there is one.
fn folder_in_memory() -> PathBuf {
    let shared = PathBuf::from("/dev/shm");
    if shared.is_dir() {
        shared
    } else {
        std::env::temp_dir()
    }
}

impl Peer for Lmdb {
    fn commit(&mut self, list: &[u64]) {
        let Functions { txn_begin, txn_commit, put, del, .. } = self.functions;
        let mut txn = null_mut();
        // Keys and values are locals, which LMDB copies.
        unsafe {
            assert_eq!(txn_begin(self.env, null_mut(), 0, &mut txn), 0);
            for &word in list {
                let (mut offer, mut price) = (word::offer(word), word::price(word));
                let answer = if word::is_put(word) {
                    put(txn, self.map, &mut number(&mut offer), &mut number(&mut price), 0)
                } else {
                    del(txn, self.map, &mut number(&mut offer), null_mut())
                };
                assert!(answer == 0 || answer == NOT_FOUND);
            }
            assert_eq!(txn_commit(txn), 0);
        }
    }

    fn look_up(&mut self, offer: u32) -> Option<u32> {
        let Functions { txn_renew, txn_reset, get, .. } = self.functions;
        let mut offer = offer;
        let mut value = Value { size: 0, data: null_mut() };
        // A value lies in the map until the transaction is reset; it is copied before.
        unsafe {
            assert_eq!(txn_renew(self.read), 0);
            let answer = get(self.read, self.map, &mut number(&mut offer), &mut value);
            let price = (answer == 0).then(|| value.data.cast::<u32>().read_unaligned());
            txn_reset(self.read);
            price
        }
    }
}

impl Drop for Lmdb {
    fn drop(&mut self) {
        // No transaction is under way and the handles are not used again.
        unsafe {
            (self.functions.txn_abort)(self.read);
            (self.functions.env_close)(self.env);
        }
        let _ = std::fs::remove_dir_all(&self.folder);
    }
}
