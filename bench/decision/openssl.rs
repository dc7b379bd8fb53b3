//! The MAC of a hop field by OpenSSL.

use crate::cipher::HopMac;
use std::ffi::{c_int, c_void};
use std::ptr;

#[link(name = "crypto")]
unsafe extern "C" {
    fn CMAC_CTX_new() -> *mut c_void;
    fn CMAC_CTX_free(context: *mut c_void);
    fn CMAC_Init(
        context: *mut c_void,
        key: *const c_void,
        len: usize,
        cipher: *const c_void,
        engine: *mut c_void,
    ) -> c_int;
    fn CMAC_Update(context: *mut c_void, data: *const c_void, len: usize) -> c_int;
    fn CMAC_Final(context: *mut c_void, out: *mut u8, len: *mut usize) -> c_int;
    fn EVP_aes_128_cbc() -> *const c_void;
}

pub struct OpensslCmac(*mut c_void);

impl HopMac for OpensslCmac {
    fn new(key: &[u8; 16]) -> OpensslCmac {
        unsafe {
            let context = CMAC_CTX_new();
            let done = CMAC_Init(
                context,
                key.as_ptr().cast(),
                key.len(),
                EVP_aes_128_cbc(),
                ptr::null_mut(),
            );
            assert_eq!(done, 1, "OpenSSL takes the key");
            OpensslCmac(context)
        }
    }

    fn mac(&self, block: &[u8; 16]) -> [u8; 6] {
        let mut tag = [0; 16];
        let mut len = 0;
        unsafe {
            CMAC_Init(self.0, ptr::null(), 0, ptr::null(), ptr::null_mut());
            CMAC_Update(self.0, block.as_ptr().cast(), block.len());
            CMAC_Final(self.0, tag.as_mut_ptr(), &mut len);
        }
        tag[..6].try_into().unwrap()
    }
}

impl Drop for OpensslCmac {
    fn drop(&mut self) {
        unsafe { CMAC_CTX_free(self.0) }
    }
}
