//! Stands in for the XML helpers, so that `ynd.rs` compiles. XML is left out.
use crate::math::Vec3;
use crate::names::NameTable;
use roxmltree::Node;

pub fn child(_: Node, _: &str) -> Option<Node> { unimplemented!() }
pub fn child_attr_f32(_: Node, _: &str, _: &str) -> f32 { unimplemented!() }
pub fn child_attr_u32(_: Node, _: &str, _: &str) -> u32 { unimplemented!() }
pub fn child_text(_: Node, _: &str) -> String { unimplemented!() }
pub fn child_vec3(_: Node, _: &str) -> Vec3 { unimplemented!() }
pub fn hash_string(_: u32, _: &NameTable) -> String { unimplemented!() }
pub fn items(_: Node, _: &str) -> Vec<Node> { unimplemented!() }
pub fn parse_hash(_: &str) -> u32 { unimplemented!() }
pub fn write_items<T>(_: &mut XmlOut, _: &str, _: &[T], _: impl Fn(&mut XmlOut, &T)) { unimplemented!() }

pub struct XmlOut { pub out: String }
impl XmlOut {
    pub fn new() -> Self { unimplemented!() }
    pub fn open(&mut self, _: &str) { unimplemented!() }
    pub fn close(&mut self, _: &str) { unimplemented!() }
    pub fn value<T: std::fmt::Display>(&mut self, _: &str, _: T) { unimplemented!() }
    pub fn string(&mut self, _: &str, _: &str) { unimplemented!() }
    pub fn vec3(&mut self, _: &str, _: Vec3) { unimplemented!() }
    pub fn self_closing(&mut self, _: &str) { unimplemented!() }
    pub fn raw_array<T>(&mut self, _: &str, _: &[T], _: usize, _: impl Fn(&T) -> String) { unimplemented!() }
}
