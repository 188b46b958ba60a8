//! Stands in for flate2: the container's names, so that `resource.rs` compiles. The judge never reads or writes a
//! container.
pub struct Compression;

pub mod read {
    pub struct DeflateDecoder<R>(#[allow(dead_code)] R);
    impl<R> DeflateDecoder<R> { pub fn new(source: R) -> Self { Self(source) } }
    impl<R> std::io::Read for DeflateDecoder<R> {
        fn read(&mut self, _: &mut [u8]) -> std::io::Result<usize> { unimplemented!("the container is left out") }
    }
}

pub mod write {
    pub struct DeflateEncoder;
}
