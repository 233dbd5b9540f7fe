//! Makes stream starts and layouts, valid and damaged, and type sheets.
//!
//! A layout is built as a small tree so that most of what is made passes every rule. Then a field, a count, a byte or a
//! length is changed, so that what is refused is refused late and for many reasons.
use std::ops::Range;

/// A small generator of random numbers (xorshift with a multiplication).
#[derive(Clone)]
pub struct Rng(u64);

impl Rng {
    pub fn new(seed: u64) -> Self {
        let mut rng = Self(seed.wrapping_mul(0x9E37_79B9_7F4A_7C15) ^ 0xD1B5_4A32_D192_ED03);
        if rng.0 == 0 {
            rng.0 = 1;
        }
        for _ in 0..4 {
            rng.next();
        }
        rng
    }

    pub fn next(&mut self) -> u64 {
        self.0 ^= self.0 << 13;
        self.0 ^= self.0 >> 7;
        self.0 ^= self.0 << 17;
        self.0.wrapping_mul(0x2545_F491_4F6C_DD1D)
    }

    pub fn byte(&mut self) -> u8 {
        (self.next() >> 40) as u8
    }

    /// A number below `n`, or 0 where `n` is 0.
    pub fn below(&mut self, n: usize) -> usize {
        if n == 0 {
            0
        } else {
            (self.next() >> 33) as usize % n
        }
    }

    pub fn one_in(&mut self, n: usize) -> bool {
        self.below(n) == 0
    }

    pub fn pick<T: Copy>(&mut self, from: &[T]) -> T {
        from[self.below(from.len())]
    }
}

/// The length of an entry of a layout: eleven bytes that are read, and five that are skipped.
pub const ENTRY: usize = 16;

/// A type sheet in its lent form, with names for its places.
#[derive(Clone, PartialEq)]
pub struct Sheet(pub [u16; 520]);

/// The ids that a sheet gives a meaning of their own, and its other numbers.
#[derive(Clone, Copy)]
pub struct Ids {
    pub struct_: u8,
    pub symbol: u8,
    pub decimal: u8,
    pub padding: u8,
    pub extension: u16,
    pub header: u16,
}

impl Sheet {
    /// A sheet with these ids, and these (id, natural size, uses labels).
    pub fn new(ids: Ids, scalars: &[(u8, u16, bool)]) -> Self {
        let mut words = [0; 520];
        for &(id, size, labels) in scalars {
            words[id as usize] = size;
            words[256 + id as usize] = labels as u16;
        }
        words[512..520].copy_from_slice(&[
            ids.struct_ as u16,
            ids.symbol as u16,
            ids.decimal as u16,
            ids.padding as u16,
            ids.extension,
            u16::MAX,
            ids.header,
            0,
        ]);
        Self(words)
    }

    /// A sheet of random numbers, special ids that may coincide among them.
    pub fn random(r: &mut Rng) -> Self {
        let mut words = [0; 520];
        for id in 0..256 {
            words[id] = r.pick(&[0, 0, 1, 1, 2, 4, 8, 8, 3, 16]);
            words[256 + id] = r.pick(&[0, 0, 1, 7]);
        }
        for word in &mut words[512..516] {
            let most = r.pick(&[6, 300, 300, 300]);
            *word = r.below(most) as u16;
        }
        words[516] = r.pick(&[64, 64, 0, 1, 16, 128, 3, 40000]);
        words[517] = r.pick(&[65535, 65535, 0, 2]);
        words[518] = r.pick(&[24, 16, 0, 8, 65535]);
        words[519] = r.next() as u16;
        Self(words)
    }

    pub fn size(&self, id: u8) -> usize {
        self.0[id as usize] as usize
    }

    pub fn uses_labels(&self, id: u8) -> bool {
        self.0[256 + id as usize] != 0
    }

    pub fn struct_id(&self) -> u8 {
        self.0[512] as u8
    }

    pub fn symbol_id(&self) -> u8 {
        self.0[513] as u8
    }

    pub fn decimal_id(&self) -> u8 {
        self.0[514] as u8
    }

    pub fn padding_id(&self) -> u8 {
        self.0[515] as u8
    }

    pub fn extension(&self) -> u8 {
        self.0[516] as u8
    }

    pub fn no_labels(&self) -> u16 {
        self.0[517]
    }

    pub fn header(&self) -> usize {
        self.0[518] as usize
    }

    /// What an id's offset is to be a multiple of.
    fn align(&self, id: u8) -> usize {
        if id == self.padding_id() || id == self.struct_id() {
            1
        } else {
            self.size(id).max(1)
        }
    }
}

/// The plain sheet: eight-byte decimals, integers of 1 to 8 bytes, enums and bit sets that use labels.
pub fn plain_sheet() -> Sheet {
    Sheet::new(IDS, &SCALARS)
}

pub const IDS: Ids = Ids { struct_: 1, symbol: 2, decimal: 4, padding: 0, extension: 64, header: 24 };
pub const SCALARS: [(u8, u16, bool); 16] = [
    (4, 8, false),
    (5, 1, false),
    (6, 2, false),
    (7, 4, false),
    (8, 8, false),
    (9, 1, false),
    (10, 2, false),
    (11, 4, false),
    (12, 8, false),
    (13, 1, true),
    (14, 1, true),
    (15, 2, true),
    (16, 1, true),
    (17, 2, true),
    (18, 4, true),
    (19, 8, true),
];

/// A second set of ids, with another header and another extension bit.
pub const OTHER_IDS: Ids = Ids { struct_: 200, symbol: 17, decimal: 0, padding: 255, extension: 16, header: 32 };
pub const OTHER_SCALARS: [(u8, u16, bool); 12] = [
    (0, 8, false),
    (100, 1, false),
    (101, 2, false),
    (102, 4, false),
    (103, 8, false),
    (31, 1, true),
    (32, 2, true),
    (250, 4, true),
    (251, 8, true),
    (1, 2, false),
    (2, 4, false),
    (3, 1, true),
];

pub fn other_sheet() -> Sheet {
    Sheet::new(OTHER_IDS, &OTHER_SCALARS)
}

/// A name of at most `max` bytes, with some letters of two to four bytes.
pub fn name(r: &mut Rng, max: usize) -> Vec<u8> {
    let length = r.below(max + 1);
    let mut out = Vec::new();
    while out.len() < length {
        let letter = match r.below(12) {
            0 => 'é',
            1 => '\u{200D}',
            2 => '\u{1F600}',
            3 => '`',
            _ => (b'a' + r.below(26) as u8) as char,
        };
        let mut bytes = [0; 4];
        let bytes = letter.encode_utf8(&mut bytes).as_bytes();
        if out.len() + bytes.len() > length {
            break;
        }
        out.extend_from_slice(bytes);
    }
    out
}

/// A symbol of exactly `width` bytes: mostly text and NULs; sometimes the full width, or NULs only.
pub fn symbol(r: &mut Rng, width: usize) -> Vec<u8> {
    let mut out = match r.below(10) {
        0 => Vec::new(),
        1 => vec![b'Z'; width],
        _ => name(r, width.min(8)),
    };
    out.resize(width, 0);
    out
}

/// Puts a name, a NUL, and another byte after it, often the last, into a text of two bytes or more. Now and then it is no UTF-8.
pub fn after_nul(r: &mut Rng, text: &mut [u8]) {
    let Some(most) = text.len().checked_sub(2) else { return };
    let name = name(r, most);
    text.fill(0);
    text[..name.len()].copy_from_slice(&name);
    let after = &mut text[name.len() + 1..];
    let place = if r.one_in(3) { after.len() - 1 } else { r.below(after.len()) };
    after[place] = if r.one_in(8) { 0xFF } else { b'x' };
}

pub fn date(r: &mut Rng) -> u32 {
    if r.one_in(8) {
        return r.pick(&[101, 20240229, 20000229, 99991231, 19700101, 40229, 20231231]);
    }
    (r.below(10000) * 10000 + (1 + r.below(12)) * 100 + 1 + r.below(28)) as u32
}

/// Lists and mappings with random symbols: `lists` are the lengths of the three, `mappings` the intervals of each.
pub fn symbology(r: &mut Rng, width: usize, lists: [usize; 3], mappings: &[usize]) -> Vec<u8> {
    let mut out = Vec::new();
    for count in lists {
        put32(&mut out, count as u32);
        for _ in 0..count {
            out.extend(symbol(r, width));
        }
    }
    put32(&mut out, mappings.len() as u32);
    for &intervals in mappings {
        out.extend(symbol(r, width));
        put32(&mut out, intervals as u32);
        for _ in 0..intervals {
            put32(&mut out, date(r));
            put32(&mut out, date(r));
            out.extend(symbol(r, width));
        }
    }
    out
}

fn put16(out: &mut Vec<u8>, number: u16) {
    out.extend(number.to_le_bytes());
}

fn put32(out: &mut Vec<u8>, number: u32) {
    out.extend(number.to_le_bytes());
}

/// A layout as a tree.
#[derive(Clone, Debug)]
pub struct FieldTree {
    pub id: u16,
    pub offset: u16,
    pub size: u16,
    pub type_id: u8,
    pub flags: u8,
    pub def_index: u16,
    pub scale: u8,
    pub name: Vec<u8>,
}

#[derive(Clone, Debug)]
pub struct RecordTree {
    pub rtype: u16,
    pub schema: u16,
    pub base: u16,
    pub hash: u64,
    pub name: Vec<u8>,
    pub fields: Vec<FieldTree>,
}

#[derive(Clone, Debug)]
pub struct StructTree {
    pub size: u16,
    pub name: Vec<u8>,
    pub fields: Vec<FieldTree>,
}

#[derive(Clone, Debug)]
pub struct LabelTree {
    pub name: Vec<u8>,
    pub labels: Vec<(u16, Vec<u8>)>,
}

/// `fill`: skipped bytes are random, and sections have leftovers.
#[derive(Clone, Debug, Default)]
pub struct LayoutTree {
    pub version: u16,
    pub records: Vec<RecordTree>,
    pub structs: Vec<StructTree>,
    pub labels: Vec<LabelTree>,
    pub fill: bool,
}

impl LayoutTree {
    /// The bytes of the layout.
    pub fn bytes(&self, r: &mut Rng) -> Vec<u8> {
        let mut out = Vec::new();
        put16(&mut out, self.version);
        put16(&mut out, self.records.len() as u16);
        for record in &self.records {
            let mut body = Vec::new();
            put16(&mut body, record.rtype);
            put16(&mut body, record.schema);
            put16(&mut body, record.base);
            body.extend(record.hash.to_le_bytes());
            put_name(&mut body, &record.name);
            self.put_fields(r, &mut body, &record.fields);
            self.put_section(r, &mut out, &body);
        }
        put16(&mut out, self.structs.len() as u16);
        for item in &self.structs {
            let mut body = Vec::new();
            put16(&mut body, item.size);
            put_name(&mut body, &item.name);
            self.put_fields(r, &mut body, &item.fields);
            self.put_section(r, &mut out, &body);
        }
        put16(&mut out, self.labels.len() as u16);
        for item in &self.labels {
            let mut body = Vec::new();
            put_name(&mut body, &item.name);
            put16(&mut body, item.labels.len() as u16);
            for (code, name) in &item.labels {
                put16(&mut body, *code);
                put_name(&mut body, name);
            }
            self.put_section(r, &mut out, &body);
        }
        if self.fill && r.one_in(3) {
            for _ in 0..r.below(5) {
                out.push(r.byte());
            }
        }
        out
    }

    fn put_fields(&self, r: &mut Rng, out: &mut Vec<u8>, fields: &[FieldTree]) {
        put16(out, fields.len() as u16);
        for field in fields {
            put16(out, field.id);
            put16(out, field.offset);
            put16(out, field.size);
            out.extend([field.type_id, field.flags]);
            put16(out, field.def_index);
            out.push(field.scale);
            for _ in 11..ENTRY {
                out.push(if self.fill { r.byte() } else { 0 });
            }
        }
        for field in fields {
            put_name(out, &field.name);
        }
    }

    fn put_section(&self, r: &mut Rng, out: &mut Vec<u8>, body: &[u8]) {
        let leftover = if self.fill && r.one_in(2) { r.below(4) } else { 0 };
        put16(out, (body.len() + 2 + leftover) as u16);
        out.extend(body);
        for _ in 0..leftover {
            out.push(r.byte());
        }
    }
}

fn put_name(out: &mut Vec<u8>, name: &[u8]) {
    out.push(name.len() as u8);
    out.extend(name);
    out.push(0);
}

/// Fields put one after the other, each on its alignment.
struct Row<'a> {
    sheet: &'a Sheet,
    scalars: &'a [u8],
    fields: Vec<FieldTree>,
    at: usize,
    id: u16,
}

impl<'a> Row<'a> {
    fn new(sheet: &'a Sheet, scalars: &'a [u8]) -> Self {
        Self { sheet, scalars, fields: Vec::new(), at: 0, id: 1 }
    }

    fn pad_to(&mut self, r: &mut Rng, align: usize) {
        let gap = (align - self.at % align) % align;
        if gap > 0 {
            let flags = if r.one_in(4) { self.sheet.extension() } else { 0 };
            let (id, type_id) = (r.below(3) as u16, self.sheet.padding_id());
            self.push(FieldTree {
                id,
                offset: 0,
                size: gap as u16,
                type_id,
                flags,
                def_index: 0,
                scale: 0,
                name: b"_pad".to_vec(),
            });
        }
    }

    fn push(&mut self, field: FieldTree) {
        let size = field.size as usize;
        self.fields.push(FieldTree { offset: self.at as u16, ..field });
        self.at += size;
    }

    fn put(&mut self, r: &mut Rng, type_id: u8, size: usize, align: usize, flags: u8, def_index: u16) {
        self.pad_to(r, align);
        self.id += 1 + r.below(3) as u16;
        let scale = if type_id == self.sheet.decimal_id() { 0xF7 } else { r.below(3) as u8 };
        let name = name(r, 12);
        self.push(FieldTree { id: self.id, offset: 0, size: size as u16, type_id, flags, def_index, scale, name });
    }

    fn scalar(&mut self, r: &mut Rng, flags: u8, labels: usize) {
        let Some(&type_id) = self.scalars.get(r.below(self.scalars.len())) else { return };
        let size = self.sheet.size(type_id).max(1);
        let def_index = if !self.sheet.uses_labels(type_id) {
            r.below(3) as u16
        } else if labels > 0 && r.one_in(2) {
            r.below(labels) as u16
        } else {
            self.sheet.no_labels()
        };
        if r.one_in(6) {
            let size = size * (1 + r.below(4));
            self.put(r, type_id, size, self.sheet.align(type_id), flags | 0x80, def_index);
        } else {
            self.put(r, type_id, size, self.sheet.align(type_id), flags, def_index);
        }
    }

    fn align(&self) -> usize {
        self.fields.iter().map(|f| self.sheet.align(f.type_id)).max().unwrap_or(1)
    }
}

/// A layout that meets every rule of `sheet` (nearly always): `records` records of about `fields` fields.
pub fn layout(r: &mut Rng, sheet: &Sheet, width: usize, records: usize, fields: usize) -> LayoutTree {
    let special = [sheet.struct_id(), sheet.symbol_id(), sheet.padding_id()];
    let scalars: Vec<u8> = (0..=255).filter(|id| sheet.size(*id) > 0 && !special.contains(id)).collect();
    let labels: Vec<LabelTree> = (0..r.below(4)).map(|_| labels(r)).collect();
    let structs: Vec<(StructTree, usize)> = (0..r.below(4))
        .map(|_| {
            let mut row = Row::new(sheet, &scalars);
            for _ in 0..1 + r.below(5) {
                row.scalar(r, 0, labels.len());
            }
            let align = row.align();
            row.pad_to(r, align);
            (StructTree { size: row.at as u16, name: name(r, 10), fields: row.fields }, align)
        })
        .collect();
    let mut records: Vec<RecordTree> =
        (0..records).map(|i| record(r, sheet, &scalars, width, i, fields, &structs, labels.len())).collect();
    let mut seen = std::collections::HashSet::new();
    records.retain(|record| seen.insert(record.rtype));
    let structs = structs.into_iter().map(|s| s.0).collect();
    LayoutTree { version: r.next() as u16, records, structs, labels, fill: r.one_in(2) }
}

fn labels(r: &mut Rng) -> LabelTree {
    let mut codes: Vec<u16> = (0..r.below(6)).map(|_| r.below(200) as u16).collect();
    codes.sort();
    codes.dedup();
    if r.one_in(3) {
        codes.reverse();
    }
    LabelTree { name: name(r, 10), labels: codes.into_iter().map(|code| (code, name(r, 10))).collect() }
}

#[allow(clippy::too_many_arguments)]
fn record(
    r: &mut Rng,
    sheet: &Sheet,
    scalars: &[u8],
    width: usize,
    index: usize,
    fields: usize,
    structs: &[(StructTree, usize)],
    labels: usize,
) -> RecordTree {
    let mut row = Row::new(sheet, scalars);
    let header = sheet.header().min(4000);
    if header > 0 {
        // An id without a natural size of its own, or padding, so that any size will do.
        let text = (0..=255).find(|id| sheet.size(*id) == 0 && *id != sheet.struct_id() && *id != sheet.symbol_id());
        row.put(r, text.unwrap_or(sheet.padding_id()), header, 1, 0, sheet.no_labels());
    }
    let fields = if r.one_in(100) { 40 * fields } else { fields };
    for _ in 0..fields {
        if !structs.is_empty() && r.one_in(6) {
            let which = r.below(structs.len());
            let times = if r.one_in(3) { 2 } else { 1 };
            let flags = if times > 1 { 0x80 } else { 0 };
            let (item, align) = &structs[which];
            if item.size > 0 {
                row.put(r, sheet.struct_id(), item.size as usize * times, *align, flags, which as u16);
            }
        } else if width > 0 && width < 500 && r.one_in(10) {
            row.put(r, sheet.symbol_id(), width, sheet.align(sheet.symbol_id()), 0, 0);
        } else {
            row.scalar(r, 0, labels);
        }
    }
    row.pad_to(r, 8);
    let base = row.at;
    if r.one_in(3) {
        for _ in 0..1 + r.below(3) {
            row.scalar(r, sheet.extension(), labels);
        }
    }
    let mut fields = row.fields;
    match r.below(8) {
        0 => fields.reverse(),
        1 => {
            for i in (1..fields.len()).rev() {
                fields.swap(i, r.below(i + 1));
            }
        }
        2 | 3 if !fields.is_empty() => {
            let (i, j) = (r.below(fields.len()), r.below(fields.len()));
            fields.swap(i, j);
        }
        _ => {}
    }
    let mut rtype = index as u16 * 7 + 0x100 * r.below(3) as u16;
    if rtype & 255 == 0x4E {
        rtype += 1;
    }
    RecordTree { rtype, schema: r.next() as u16, base: base as u16, hash: r.next(), name: name(r, 12), fields }
}

/// One change of a tree that tends to break a rule.
pub fn bend(r: &mut Rng, sheet: &Sheet, tree: &mut LayoutTree) {
    let step = 1 + r.below(7) as u16;
    let kind = r.below(28);
    match kind {
        0 | 1 if !tree.structs.is_empty() => {
            let i = r.below(tree.structs.len());
            tree.structs[i].size = tree.structs[i].size.wrapping_add(step);
        }
        2 if tree.records.len() > 1 => {
            let (i, j) = (r.below(tree.records.len()), r.below(tree.records.len()));
            tree.records[i].rtype = tree.records[j].rtype;
        }
        3 if !tree.records.is_empty() => {
            let i = r.below(tree.records.len());
            tree.records[i].rtype = tree.records[i].rtype & 0xFF00 | 0x4E;
        }
        4 if !tree.records.is_empty() => {
            let i = r.below(tree.records.len());
            let header = sheet.header() as u16;
            tree.records[i].base = r.pick(&[header.wrapping_sub(1), header, header.wrapping_sub(8), 0, 7]);
        }
        5 if !tree.records.is_empty() => {
            let i = r.below(tree.records.len());
            let by = r.pick(&[8, 65528, 4, 16]);
            tree.records[i].base = tree.records[i].base.wrapping_add(by);
        }
        6 if !tree.labels.is_empty() => {
            let i = r.below(tree.labels.len());
            if let Some(label) = tree.labels[i].labels.first().cloned() {
                tree.labels[i].labels.push(label);
            }
        }
        7 if !tree.labels.is_empty() => {
            tree.labels.pop();
        }
        8 if !tree.structs.is_empty() => {
            tree.structs.pop();
        }
        9 if !tree.records.is_empty() => {
            let i = r.below(tree.records.len());
            tree.records[i].name = vec![b'n'; r.pick(&[0, 255, 254])];
        }
        _ => {
            let structs = !tree.structs.is_empty() && (tree.records.is_empty() || r.one_in(3));
            let fields = if structs {
                let i = r.below(tree.structs.len());
                &mut tree.structs[i].fields
            } else if !tree.records.is_empty() {
                let i = r.below(tree.records.len());
                &mut tree.records[i].fields
            } else {
                return;
            };
            if !fields.is_empty() {
                bend_fields(r, sheet, fields, kind, step);
            }
        }
    }
}

fn bend_fields(r: &mut Rng, sheet: &Sheet, fields: &mut Vec<FieldTree>, kind: usize, step: u16) {
    let (i, j) = (r.below(fields.len()), r.below(fields.len()));
    let other = fields[j].clone();
    let field = &mut fields[i];
    match kind % 16 {
        0 => field.id = other.id,
        1 => field.type_id = sheet.struct_id(),
        2 => field.def_index = r.next() as u16 & 7,
        3 => field.offset = field.offset.wrapping_add(step),
        4 => field.size = 0,
        5 => field.size = field.size.wrapping_add(step),
        6 => field.scale = r.byte(),
        7 => {
            field.type_id = sheet.symbol_id();
            field.offset &= !7;
        }
        // The last place that fits, the first that does not, and far out.
        8 => field.offset = r.pick(&[65535 - field.size, 0u16.wrapping_sub(field.size), 0xFFF8]),
        9 => field.flags ^= sheet.extension(),
        10 => {
            fields.remove(i);
        }
        11 => field.type_id = r.byte(),
        12 => field.type_id = sheet.padding_id(),
        13 => {
            let at = r.below(fields.len() + 1);
            fields.insert(at, other);
        }
        14 => field.offset = other.offset,
        _ => field.type_id = other.type_id,
    }
}

/// The fixed part of a block.
pub struct Head {
    pub version: u8,
    pub width: u16,
    pub schema: u16,
    pub end: u64,
    pub limit: u64,
    pub stype_in: u8,
    pub stype_out: u8,
    pub ts_out: u8,
    pub fill: bool,
}

impl Head {
    /// The width of the dataset.
    fn dataset(&self) -> usize {
        if self.version == 4 {
            38
        } else {
            16
        }
    }
}

/// A layout and its symbol width, bent as often as one of `bends` says; of eight one has a byte changed, and one is cut.
pub fn some_layout(r: &mut Rng, sheet: &Sheet, bends: &[usize]) -> (Vec<u8>, u16) {
    let width = r.pick(&[0u16, 3, 8, 22, 71]);
    let (records, fields) = (r.below(4), r.below(9));
    let mut tree = layout(r, sheet, width as usize, records, fields);
    for _ in 0..r.pick(bends) {
        bend(r, sheet, &mut tree);
    }
    let mut bytes = tree.bytes(r);
    match r.below(8) {
        0 => {
            let i = r.below(bytes.len());
            bytes[i] = r.byte();
        }
        1 => bytes.truncate(r.below(bytes.len())),
        _ => {}
    }
    (bytes, width)
}

/// Where the texts of a block stand whose symbology begins at `p`: the dataset; the symbols of the lists; the raw symbols; the
/// symbols of the intervals.
pub fn texts(head: &Head, mut p: usize, lists: [usize; 3], mappings: &[usize]) -> [Vec<Range<usize>>; 4] {
    let mut out = [const { Vec::new() }; 4];
    out[0].push(0..head.dataset());
    let mut put = |kind: usize, from: usize| {
        let end = from + head.width as usize;
        out[kind].push(from..end);
        end
    };
    for count in lists {
        p = (0..count).fold(p + 4, |p, _| put(1, p));
    }
    p += 4;
    for &intervals in mappings {
        p = put(2, p) + 4;
        p = (0..intervals).fold(p, |p, _| put(3, p + 8));
    }
    out
}

pub fn head(r: &mut Rng, version: u8, width: u16) -> Head {
    Head {
        version,
        width: if version == 1 { 22 } else { width },
        schema: r.pick(&[0, 1, 7, 19, 65535]),
        end: r.pick(&[0, 1, u64::MAX, u64::MAX - 1, 1_700_000_000_000_000_000]),
        limit: r.pick(&[0, 1, u64::MAX]),
        stype_in: r.pick(&[0, 4, 12, 255]),
        stype_out: r.pick(&[0, 4, 12]),
        ts_out: r.pick(&[0, 1, 2, 255]),
        fill: r.one_in(2),
    }
}

/// A block of these parts, with `after` bytes more.
pub fn block(r: &mut Rng, head: &Head, layout: &[u8], symbology: &[u8], after: usize) -> Vec<u8> {
    let mut out = symbol(r, head.dataset());
    put16(&mut out, head.schema);
    out.extend(r.next().to_le_bytes());
    out.extend(head.end.to_le_bytes());
    out.extend(head.limit.to_le_bytes());
    if head.version == 1 {
        out.extend(r.next().to_le_bytes());
    }
    out.extend([head.stype_in, head.stype_out, head.ts_out]);
    if head.version != 1 {
        put16(&mut out, head.width);
    }
    while out.len() < 100 {
        out.push(if head.fill { r.byte() } else { 0 });
    }
    put32(&mut out, layout.len() as u32);
    out.extend(layout);
    if head.version == 4 {
        put32(&mut out, symbology.len() as u32);
    }
    out.extend(symbology);
    for _ in 0..after {
        out.push(r.byte());
    }
    out
}

/// A prelude and its block.
pub fn stream_of(version: u8, block: &[u8]) -> Vec<u8> {
    let mut out = b"DBN".to_vec();
    out.push(version);
    put32(&mut out, block.len() as u32);
    out.extend(block);
    out
}

/// A stream start that is accepted (nearly always). Now and then one of its texts has more than NULs after a NUL.
pub fn stream(r: &mut Rng, sheet: &Sheet, version: u8) -> Vec<u8> {
    let width = r.pick(&[0u16, 1, 3, 8, 22, 71]);
    let head = head(r, version, width);
    let width = head.width as usize;
    let lists = [0; 3].map(|_| if width == 0 { 0 } else { r.below(5) });
    let mappings: Vec<usize> = (0..r.below(4)).map(|_| r.below(5)).collect();
    let symbology = symbology(r, width, lists, &mappings);
    let after = if r.one_in(3) { r.below(9) } else { 0 };
    // Now and then no layout in version 4, or one below it.
    let layout = if (version == 4) != r.one_in(60) {
        let (records, fields) = (r.below(4), r.below(7));
        let tree = layout(r, sheet, width, records, fields);
        tree.bytes(r)
    } else {
        Vec::new()
    };
    let mut block = block(r, &head, &layout, &symbology, after);
    if r.one_in(10) {
        let texts = &texts(&head, block.len() - after - symbology.len(), lists, &mappings)[r.below(4)];
        if let Some(text) = texts.get(r.below(texts.len())) {
            after_nul(r, &mut block[text.clone()]);
        }
    }
    stream_of(version, &block)
}

/// A damaged copy: a flip, another byte or number, a cut, a byte more or less, the prelude's length made to match or not.
pub fn damage(r: &mut Rng, stream: &[u8]) -> Vec<u8> {
    let mut out = stream.to_vec();
    let n = out.len();
    if n <= 112 {
        if n > 0 {
            let i = r.below(n);
            out[i] = r.byte();
        }
        return out;
    }
    let (late, step) = (108 + r.below(n - 112), r.pick(&[1u32, u32::MAX, 2, 100, 256, 65536]));
    match r.below(10) {
        0 => {
            let i = r.below(n);
            out[i] ^= 1 << r.below(8);
        }
        9 => {
            // The prelude, one up or down.
            let i = r.below(5);
            out[i] = out[i].wrapping_add(r.pick(&[1, 255]));
        }
        1 => {
            let i = 8 + r.below(n - 8);
            out[i] = r.byte();
        }
        2 => out.truncate(r.below(n)),
        3 => {
            out.truncate(8 + r.below(n - 8));
            match_length(&mut out);
        }
        4 => {
            let number = u16::from_le_bytes([out[late], out[late + 1]]).wrapping_add(step as u16);
            out[late..late + 2].copy_from_slice(&number.to_le_bytes());
        }
        5 => {
            let number = u32::from_le_bytes(out[late..late + 4].try_into().unwrap()).wrapping_add(step);
            out[late..late + 4].copy_from_slice(&number.to_le_bytes());
        }
        6 => {
            out.insert(late, r.byte());
            match_length(&mut out);
        }
        7 => {
            out.remove(late);
            match_length(&mut out);
        }
        _ => {
            let i = r.below(108);
            out[i] = r.pick(&[0, 1, 255, 20, 13, 0x4E]);
        }
    }
    out
}

/// Puts the true length of the block into the prelude.
pub fn match_length(stream: &mut [u8]) {
    if stream.len() >= 8 {
        let length = (stream.len() - 8) as u32;
        stream[4..8].copy_from_slice(&length.to_le_bytes());
    }
}
