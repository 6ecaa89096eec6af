//! The layout of a table in words, of an image in bytes and of the windows of a week, as the
//! harness makes and reads them. No other file of it counts words or bytes; the reference and
//! the second writing have numbers of their own.

// The words of a table's header, and how many they are. Its step count is 0 always.
pub const R: usize = 0;
pub const COUNT: usize = 1;
pub const STEPS: usize = 2;
pub const HEADER: usize = 3;

// The words of a record; its list of r entries begins at the last of these, and after the list
// stands its step count.
pub const ID: usize = 0;
pub const PREDECESSOR: usize = 1;
pub const PENDING: usize = 2;
pub const CANDIDATE: usize = 3;
pub const LIST: usize = 4;

/// How many words a record has.
pub const fn width(r: usize) -> usize {
    LIST + r + 1
}

/// The word at which the record at a place begins.
pub const fn record_at(r: usize, place: usize) -> usize {
    HEADER + place * width(r)
}

/// The word at which the step count of the record at a place stands.
pub const fn steps_at(r: usize, place: usize) -> usize {
    record_at(r, place) + LIST + r
}

/// How many words a table has.
pub const fn size(r: usize, members: usize) -> usize {
    record_at(r, members)
}

/// How many words the longest table has.
pub const LONGEST: usize = size(8, 256);

/// The records of a well-formed table.
pub fn records(words: &[u32]) -> impl Iterator<Item = &[u32]> + Clone {
    words[HEADER..].chunks_exact(width(words[R] as usize)).take(words[COUNT] as usize)
}

/// The record of a member, if there is one of this identifier.
pub fn record(words: &[u32], id: u32) -> Option<&[u32]> {
    records(words).find(|record| record[ID] == id)
}

/// The place of the record that a word of a well-formed table belongs to, and the word's place in
/// it; none of the header's words, nor of those after the last record.
pub fn place_of(words: &[u32], at: usize) -> Option<(usize, usize)> {
    let (r, n) = (words[R] as usize, words[COUNT] as usize);
    (HEADER..size(r, n)).contains(&at).then(|| ((at - HEADER) / width(r), (at - HEADER) % width(r)))
}

/// How many bytes an image has.
pub const fn image_size(r: usize, members: usize) -> usize {
    field_at(r, members) + HEAD
}

/// The words after the last record of a well-formed table.
pub fn rest(words: &[u32]) -> &[u32] {
    &words[size(words[R] as usize, words[COUNT] as usize)..]
}

/// The list of a record.
pub fn list(record: &[u32]) -> &[u32] {
    &record[LIST..][..record.len() - width(0)]
}

/// The step count of a record.
pub fn steps(record: &[u32]) -> u32 {
    record[record.len() - 1]
}

/// A record without its step count.
pub fn uncounted(record: &[u32]) -> &[u32] {
    &record[..record.len() - 1]
}

/// The minutes of a week, which service hours are set for.
pub const WEEK: u32 = 10_080;

/// How many windows there may be. They are words, start and end by turns.
pub const MOST_WINDOWS: usize = 16;

// A field of an image: its head is a tag and two bytes for the length of the contents, the
// high one first; then come the contents.
pub const TAG: usize = 0;
pub const LENGTH: usize = 1;
pub const HEAD: usize = 3;

// The tags: of the first field, of a member's and of the last one, which has no contents.
pub const FIRST: u8 = 1;
pub const MEMBER: u8 = 2;
pub const LAST: u8 = 3;

// Where the numbers of the first field begin, and after it the members' fields.
const FIRST_R: usize = HEAD;
const FIRST_COUNT: usize = FIRST_R + 1;
pub const FIRST_STEPS: usize = FIRST_COUNT + 2;
pub const MEMBERS: usize = FIRST_STEPS + 4;

/// The length of a member's contents: three numbers, a byte for pending, the list, and the
/// step count.
pub const fn member_length(r: usize) -> usize {
    17 + 4 * r
}

/// How many bytes a member's field has.
pub const fn field_width(r: usize) -> usize {
    HEAD + member_length(r)
}

/// The byte at which the field of the member at a place begins, or, after all members, the
/// last field.
pub const fn field_at(r: usize, place: usize) -> usize {
    MEMBERS + place * field_width(r)
}

/// The step count in the field of the member at a place.
pub fn field_steps(image: &[u8], place: usize) -> u32 {
    let end = field_at(image_r(image), place + 1);
    u32::from_be_bytes([image[end - 4], image[end - 3], image[end - 2], image[end - 1]])
}

/// The bytes of an image with each member's step count 0.
pub fn without_counts(mut image: Vec<u8>) -> Vec<u8> {
    for place in 0..image_count(&image) {
        let end = field_at(image_r(&image), place + 1);
        image[end - 4..end].fill(0);
    }
    image
}

/// r as an image of `FIRST_STEPS` bytes or more says it.
pub fn image_r(image: &[u8]) -> usize {
    image[FIRST_R] as usize
}

/// The member count as such an image says it.
pub fn image_count(image: &[u8]) -> usize {
    u16::from_be_bytes([image[FIRST_COUNT], image[FIRST_COUNT + 1]]) as usize
}

/// The head of a field.
pub fn head(tag: u8, length: usize) -> Vec<u8> {
    let [high, low] = (length as u16).to_be_bytes();
    vec![tag, high, low]
}

/// The first field.
pub fn first_field(r: u32, count: u32, steps: u32) -> Vec<u8> {
    let mut field = head(FIRST, MEMBERS - HEAD);
    field.push(r as u8);
    field.extend((count as u16).to_be_bytes());
    field.extend(steps.to_be_bytes());
    field
}

/// The parts of a table, which need not fit together. `steps` is the header's count.
#[derive(Clone)]
pub struct Raw {
    pub r: u32,
    pub count: u32,
    pub steps: u32,
    pub records: Vec<Record>,
}

#[derive(Clone)]
pub struct Record {
    pub id: u32,
    pub predecessor: u32,
    pub pending: u32,
    pub candidate: u32,
    pub list: Vec<u32>,
    pub steps: u32,
}

impl Record {
    /// A record whose step is pending where there is a candidate, and of which no step is
    /// counted.
    pub fn new(id: u32, predecessor: u32, candidate: Option<u32>, list: Vec<u32>) -> Record {
        let pending = candidate.is_some() as u32;
        Record { id, predecessor, pending, candidate: candidate.unwrap_or(0), list, steps: 0 }
    }

    fn of(words: &[u32]) -> Record {
        Record {
            id: words[ID],
            predecessor: words[PREDECESSOR],
            pending: words[PENDING],
            candidate: words[CANDIDATE],
            list: list(words).to_vec(),
            steps: steps(words),
        }
    }

    /// The words of a record as it was before it had a step count of its own.
    fn older_words(&self) -> Vec<u32> {
        let mut words = vec![self.id, self.predecessor, self.pending, self.candidate];
        words.extend(&self.list);
        words
    }

    fn words(&self) -> Vec<u32> {
        let mut words = self.older_words();
        words.push(self.steps);
        words
    }

    /// The contents of the member's field as they were before.
    fn older_contents(&self) -> Vec<u8> {
        let mut contents = Vec::new();
        contents.extend(self.id.to_be_bytes());
        contents.extend(self.predecessor.to_be_bytes());
        contents.push(self.pending as u8);
        contents.extend(self.candidate.to_be_bytes());
        for entry in &self.list {
            contents.extend(entry.to_be_bytes());
        }
        contents
    }

    fn contents(&self) -> Vec<u8> {
        let mut contents = self.older_contents();
        contents.extend(self.steps.to_be_bytes());
        contents
    }
}

/// A member's field of these contents.
fn member_field(contents: Vec<u8>) -> Vec<u8> {
    let mut field = head(MEMBER, contents.len());
    field.extend(contents);
    field
}

impl Raw {
    /// The table of these records.
    pub fn new(r: usize, records: Vec<Record>) -> Raw {
        Raw { r: r as u32, count: records.len() as u32, steps: 0, records }
    }

    /// The parts of a well-formed table.
    pub fn of(words: &[u32]) -> Raw {
        let records = records(words).map(Record::of).collect();
        Raw { r: words[R], count: words[COUNT], steps: words[STEPS], records }
    }

    /// How many words a record has.
    pub fn width(&self) -> usize {
        width(self.r as usize)
    }

    /// The header and these words of the records.
    fn words_of(&self, record: impl Fn(&Record) -> Vec<u32>) -> Vec<u32> {
        let header = vec![self.r, self.count, self.steps];
        header.into_iter().chain(self.records.iter().flat_map(record)).collect()
    }

    pub fn words(&self) -> Vec<u32> {
        self.words_of(Record::words)
    }

    /// The words in the layout before this one: one step count, in the header.
    pub fn older_words(&self) -> Vec<u32> {
        self.words_of(Record::older_words)
    }

    /// The fields of an image whose members have these contents, each with its tag and length
    /// bytes.
    fn fields_of(&self, contents: impl Fn(&Record) -> Vec<u8>) -> Vec<Vec<u8>> {
        let mut fields = vec![first_field(self.r, self.count, self.steps)];
        fields.extend(self.records.iter().map(|record| member_field(contents(record))));
        fields.push(head(LAST, 0));
        fields
    }

    pub fn fields(&self) -> Vec<Vec<u8>> {
        self.fields_of(Record::contents)
    }

    pub fn image(&self) -> Vec<u8> {
        self.fields().concat()
    }

    /// The image in the layout before this one.
    pub fn older_image(&self) -> Vec<u8> {
        self.fields_of(Record::older_contents).concat()
    }
}
