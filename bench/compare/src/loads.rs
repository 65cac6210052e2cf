//! The inputs whose times are taken, each at a share of its full size.

/// A share of the full size.
#[derive(Clone, Copy, Debug, PartialEq, Eq)]
pub enum Share {
    Quarter,
    Half,
    Full,
}

impl Share {
    pub const ALL: [Share; 3] = [Share::Quarter, Share::Half, Share::Full];

    /// That share of a number.
    pub fn of(self, full: usize) -> usize {
        match self {
            Share::Quarter => full / 4,
            Share::Half => full / 2,
            Share::Full => full,
        }
    }
}

/// A script of 4,096, 8,192 or 16,384 bytes: 16, 32 or 64 files, starting contents and lines, and some comments.
pub fn long_script(share: Share) -> Vec<u8> {
    let count = share.of(64);
    let mut text = String::new();
    for file in 0..count {
        text += &format!("file {file:02} label-of-file-{file:02}\n");
    }
    for file in 0..count {
        text += &format!("have label-of-file-{file:02} {}\n", "x".repeat(60 + file));
    }
    for line in 0..count {
        let [a, b, c] = [line, (line * 7 + 1) % count, (line * 5 + 2) % count];
        text += &format!("join label-of-file-{a:02} label-of-file-{b:02}   label-of-file-{c:02}\n");
        text += "# a note to the shop\n";
    }
    let length = share.of(16_384);
    assert!(text.len() <= length);
    while text.len() < length {
        text += if length - text.len() >= 40 {
            "# ......................................\n"
        } else {
            "\n"
        };
    }
    text.into_bytes()
}

/// A script of 15, 31 or 63 lines, each of which writes a file of its own, most of them from what earlier lines wrote.
/// There are no 64 lines that can be kept: each would have to write one of the 64 files, and then the file that the
/// first line reads would be written after it.
pub fn chain(share: Share) -> Vec<u8> {
    board(share, "010203")
}

/// The same on a later day: the list names one more file, which the line before the last one writes. By the records of
/// the first day the last line waits on the first three alone, so it is started too early.
pub fn longer_list(share: Share) -> Vec<u8> {
    board(share, &format!("010203{:02}", share.of(64) - 2))
}

fn board(share: Share, list: &str) -> Vec<u8> {
    let files = share.of(64);
    let mut text = String::new();
    for file in 0..files {
        text += &format!("file {file:02} f{file}\n");
    }
    text += &format!("have f0 {list}\n");
    let mut last = 0;
    for to in 1..files - 1 {
        text += &match to % 5 {
            1 => format!("join f{last} f0 f{to}\n"),
            2 => format!("copy f{last} f{to}\n"),
            3 => format!("choose f0 f0 f{last} f{to}\n"),
            4 => format!("tally f{last} f{to}\n"),
            _ => format!("check f0 f{last} f{to}\n"),
        };
        if to % 5 <= 3 && to % 5 >= 1 {
            last = to;
        }
    }
    text += &format!("gather f0 f{}\n", files - 1);
    text.into_bytes()
}

/// The largest trace file, or a share of it: 64, 128 or 256 true records of 16 reads each, over 256, 512 or 1,024
/// contents of nearly as many bytes as a pool holds.
pub fn largest_trace(share: Share) -> Vec<u8> {
    let count = share.of(256);
    let list: String = (0..15).map(|file| format!("{file:02}")).collect();
    let mut contents: Vec<Vec<u8>> = vec![list.into_bytes()];
    let mut records: Vec<Vec<u8>> = vec![];
    for record in 0..count {
        let parts: Vec<Vec<u8>> = (0..3)
            .map(|part| format!("{record:04}{part}").repeat(9)[..42].into())
            .collect();
        let mut bytes = vec![
            3,
            16 + (record / 48) as u8,
            16 + (record % 48) as u8,
            0,
            0,
            16,
        ];
        let read = |bytes: &mut Vec<u8>, file: u8, index: usize| {
            bytes.push(file);
            bytes.extend((index as u16).to_be_bytes());
        };
        read(&mut bytes, 16 + (record / 48) as u8, 1);
        let start = contents.len();
        for file in 0..15usize {
            match parts.get(file) {
                Some(part) => {
                    contents.push(part.clone());
                    read(&mut bytes, file as u8, start + 1 + file);
                }
                None => {
                    if record == 0 && file == 3 {
                        contents.push(vec![]);
                    }
                    read(&mut bytes, file as u8, 5);
                }
            }
        }
        // The write of the last record is one that is there: so there are not more contents than a pool holds.
        if record + 1 == count && contents.len() >= 4 * count {
            contents.truncate(start);
            bytes.truncate(9);
            for file in 0..15 {
                read(&mut bytes, file as u8, 5);
            }
            read(&mut bytes, 16 + (record % 48) as u8, 5);
        } else {
            contents.push(parts.concat());
            read(&mut bytes, 16 + (record % 48) as u8, contents.len());
        }
        records.push(bytes);
    }
    let mut file = (contents.len() as u16).to_be_bytes().to_vec();
    for content in &contents {
        file.extend((content.len() as u16).to_be_bytes());
        file.extend(content);
    }
    file.extend((records.len() as u16).to_be_bytes());
    file.extend(records.concat());
    file
}

/// 256, 512 or 1,024 contents of 64 bytes, each after its length.
pub fn contents(share: Share) -> Vec<u8> {
    let mut list = vec![];
    for at in 0..share.of(1_024) {
        list.extend(64u16.to_be_bytes());
        list.extend(format!("{at:064}").bytes());
    }
    list
}
