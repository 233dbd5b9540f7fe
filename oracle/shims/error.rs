// STAND-IN: src/error.rs is not in the text at hand. Messages of the given files are kept whole.
#[derive(Debug)]
pub enum Error {
    Decode(String),
    Layout(String),
    Encode(String),
    Utf8 { source: std::str::Utf8Error, context: String },
    Conversion { input: String, desired_type: &'static str },
    BadArgument { param_name: String, desc: String },
    Io { source: std::io::Error, context: String },
}
pub type Result<T> = std::result::Result<T, Error>;
impl Error {
    pub fn decode(m: impl ToString) -> Self { Self::Decode(m.to_string()) }
    pub fn layout(m: impl ToString) -> Self { Self::Layout(m.to_string()) }
    pub fn encode(m: impl ToString) -> Self { Self::Encode(m.to_string()) }
    pub fn utf8(source: std::str::Utf8Error, c: impl ToString) -> Self { Self::Utf8 { source, context: c.to_string() } }
    pub fn conversion<T>(input: impl ToString) -> Self { Self::Conversion { input: input.to_string(), desired_type: std::any::type_name::<T>() } }
    pub fn io(source: std::io::Error, c: impl ToString) -> Self { Self::Io { source, context: c.to_string() } }
}
impl std::fmt::Display for Error {
    fn fmt(&self, f: &mut std::fmt::Formatter<'_>) -> std::fmt::Result {
        match self {
            Self::Decode(m) => write!(f, "decode: {m}"),
            Self::Layout(m) => write!(f, "layout: {m}"),
            Self::Encode(m) => write!(f, "encode: {m}"),
            Self::Utf8 { context, .. } => write!(f, "utf8: {context}"),
            Self::Conversion { input, desired_type } => write!(f, "conversion: {input} to {desired_type}"),
            Self::BadArgument { param_name, desc } => write!(f, "argument: {param_name}: {desc}"),
            Self::Io { context, .. } => write!(f, "io: {context}"),
        }
    }
}
