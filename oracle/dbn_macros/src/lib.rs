// STAND-IN for the crate `dbn-macros`: derives that only declare their helper attributes, and `dbn_record`.
use proc_macro::{TokenStream, TokenTree};
macro_rules! empty { ($($f:ident, $n:ident, $a:ident;)*) => { $( #[proc_macro_derive($n, attributes($a))] pub fn $f(_: TokenStream) -> TokenStream { TokenStream::new() } )* } }
empty! { d1, MockPyo3, pyo3; d2, ArrowSerialize, dbn; d3, CsvSerialize, dbn; d4, JsonSerialize, dbn; d5, RecordDebug, dbn; d6, StructLayoutDesc, dbn; }
#[proc_macro_attribute]
pub fn dbn_record(_attr: TokenStream, item: TokenStream) -> TokenStream {
    let toks: Vec<TokenTree> = item.clone().into_iter().collect();
    let at = toks.iter().position(|t| t.to_string() == "struct").unwrap();
    let n = toks[at + 1].to_string();
    let extra: TokenStream = format!("
        impl crate::record::HasRType for {n} {{}}
        impl crate::record::RecordMut for {n} {{}}
        impl AsRef<[u8]> for {n} {{ fn as_ref(&self) -> &[u8] {{ unsafe {{ crate::record::as_u8_slice(self) }} }} }}
        impl std::fmt::Debug for {n} {{ fn fmt(&self, f: &mut std::fmt::Formatter<'_>) -> std::fmt::Result {{ f.write_str(\"{n}\") }} }}
        impl Default for {n} {{ fn default() -> Self {{ unsafe {{ std::mem::zeroed() }} }} }}").parse().unwrap();
    let mut out = item;
    out.extend(extra);
    out
}
