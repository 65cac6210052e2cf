//! Contents, the pool, and the two file stores.

use twin::*;

fn image_bytes(first: &[u8]) -> Vec<u8> {
    let mut bytes = first.to_vec();
    bytes.resize(IMAGE_BYTES, 0);
    bytes
}

#[test]
fn the_image_of_the_example() {
    let mut image = Image::new();
    for (file, number) in [(63, 65_535), (0, 1), (5, 258)] {
        image.set(file, number);
    }
    let told = [3, 0, 0, 1, 5, 1, 2, 0x3f, 0xff, 0xff];
    assert_eq!(image.bytes()[..], image_bytes(&told));
    image.set(5, 0);
    assert_eq!(
        image.bytes()[..],
        image_bytes(&[2, 0, 0, 1, 0x3f, 0xff, 0xff])
    );
}

#[test]
fn filling_an_image() {
    let mut full = vec![64];
    full.extend((0..64).flat_map(|file| [file, 1, 0]));
    let table = [
        (image_bytes(&[]), None),
        (image_bytes(&[1, 0, 0, 1]), None),
        (full, None),
        (vec![], Some(6)),
        (vec![0; 192], Some(6)),
        (vec![0xff; 194], Some(6)),
        (image_bytes(&[1, 0, 0, 0]), Some(7)),
        (image_bytes(&[1, 0x40, 0, 1]), Some(7)),
        (image_bytes(&[2, 5, 0, 1, 5, 0, 2]), Some(7)),
        (image_bytes(&[2, 5, 0, 1, 4, 0, 2]), Some(7)),
        (image_bytes(&[0, 0, 0, 1]), Some(7)),
        (image_bytes(&[0x41]), Some(7)),
        (vec![0xff; 193], Some(7)),
    ];
    for (bytes, refusal) in table {
        let mut image = Image::new();
        image.set(9, 9);
        let before = image.clone();
        let answer = image.fill(&bytes).err().map(Refusal::number);
        assert_eq!(answer, refusal, "{bytes:?}");
        match refusal {
            None => assert_eq!(image.bytes()[..], bytes),
            Some(_) => assert_eq!(image, before),
        }
    }
}

#[test]
fn both_stores_are_the_same_map() {
    let mut table = Table::new();
    let mut image = Image::new();
    let mut seed = 1_u32;
    for _ in 0..20_000 {
        seed = seed.wrapping_mul(1_664_525).wrapping_add(1_013_904_223);
        let file = (seed >> 24) as u8 % 70;
        let number = (seed >> 8) as u16 % 4;
        table.set(file, number);
        image.set(file, number);
        let mut filled = Image::new();
        assert_eq!(filled.fill(image.bytes()), Ok(()));
        assert!((0..=255).all(|file| table.tell(file) == image.tell(file)));
    }
}

#[test]
fn putting_contents() {
    let mut pool = Pool::new(5, 3);
    assert_eq!(pool.put(b"abc"), Ok(1));
    assert_eq!(pool.put(b"abc"), Ok(1));
    assert_eq!(pool.put(b"def"), Err(NoRoom));
    assert_eq!(pool.put(b"de"), Ok(2));
    assert_eq!(pool.put(b"x"), Err(NoRoom));
    assert_eq!(pool.put(b""), Ok(3));
    assert_eq!(pool.put(b""), Ok(3));
    assert_eq!(pool.put(b"abc"), Ok(1));
    assert_eq!(pool.content(0), None);
    assert_eq!(pool.content(4), None);
    assert_eq!(
        (pool.content(2), pool.start(2)),
        (Some(&b"de"[..]), Some(3))
    );
    assert_eq!(pool.find(b""), Some(3));
    assert_eq!(pool.find(b"d"), None);
}

#[test]
fn a_content_has_at_most_4096_bytes() {
    let mut pool = Pool::new(usize::MAX, usize::MAX);
    assert_eq!(pool.put(&[7; 4_097]), Err(NoRoom));
    assert_eq!(pool.put(&[7; 4_096]), Ok(1));
}

#[test]
fn the_caps_of_the_pool() {
    let mut pool = Pool::new(usize::MAX, usize::MAX);
    let places = (0..2_000_u16).map_while(|n| pool.put(&n.to_be_bytes()).ok());
    assert_eq!(places.count(), 1_024);
    let mut pool = Pool::new(usize::MAX, usize::MAX);
    let full = (0..17_u8).map_while(|n| pool.put(&[n; 4_096]).ok());
    assert_eq!(full.count(), 16);
    assert_eq!(pool.bytes_used(), 65_536);
    assert_eq!(pool.put(b""), Ok(17));
}

#[test]
fn cutting_back() {
    let mut pool = Pool::new(10, 10);
    for content in [&b"ab"[..], b"", b"cde"] {
        assert!(pool.put(content).is_ok());
    }
    pool.cut_back(9);
    assert_eq!(pool.extent(), 3);
    pool.cut_back(1);
    assert_eq!((pool.extent(), pool.bytes_used()), (1, 2));
    assert_eq!((pool.find(b"cde"), pool.find(b"")), (None, None));
    assert_eq!(pool.put(b"cde"), Ok(2));
    pool.cut_back(0);
    assert_eq!(pool.put(b"cde"), Ok(1));
}

#[test]
fn lists() {
    let fifteen = "00".repeat(15);
    let sixteen = "00".repeat(16);
    let table = [
        ("", Some(0)),
        ("0063", Some(2)),
        (&fifteen, Some(15)),
        (&sixteen, None),
        ("010", None),
        ("64", None),
        ("0x", None),
        ("+1", None),
    ];
    for (content, count) in table {
        let list = List::read(content.as_bytes());
        assert_eq!(list.map(|list| list.count()), count, "{content}");
    }
}
