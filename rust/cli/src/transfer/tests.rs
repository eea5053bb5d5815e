//! Power cuts at every step that a transfer takes on the disk.

use super::*;
use eif::{DataLength, Place, Plan, SectionType};
use std::cell::RefCell;
use std::collections::BTreeMap;
use std::path::Path;
use std::rc::Rc;

/// A disk that loses its power, and what is left on it.
#[derive(Clone)]
struct Torn {
    files: Rc<RefCell<BTreeMap<PathBuf, Vec<u8>>>>,
    /// How many calls are left until the cut; none: there is no cut.
    left: Option<usize>,
    /// What the cut leaves of the call it meets: its nth part written, of each part the nth byte of two, ..
    way: usize,
}

const WAYS: usize = 6;

impl Torn {
    fn new() -> Torn {
        Torn {
            files: Rc::default(),
            left: None,
            way: 0,
        }
    }

    /// The same files, with a cut to come.
    fn cut_after(&self, left: usize, way: usize) -> Torn {
        let files = Rc::new(RefCell::new(self.files.borrow().clone()));
        let left = Some(left);
        Torn { files, left, way }
    }

    /// The same files, the power back.
    fn again(&self) -> Torn {
        Torn {
            left: None,
            ..self.clone()
        }
    }

    /// Whether this call is the one that is cut. After it nothing is done any more.
    fn is_cut(&mut self) -> io::Result<bool> {
        match &mut self.left {
            None => Ok(false),
            Some(usize::MAX) => Err(io::Error::other("the power is gone")),
            Some(0) => {
                self.left = Some(usize::MAX);
                Ok(true)
            }
            Some(left) => {
                *left -= 1;
                Ok(false)
            }
        }
    }

    fn get(&self, name: &str) -> Option<Vec<u8>> {
        self.files.borrow().get(Path::new(name)).cloned()
    }

    fn names(&self) -> Vec<String> {
        let files = self.files.borrow();
        files
            .keys()
            .map(|name| name.display().to_string())
            .collect()
    }
}

/// What a call answers, cut or not.
fn ended(cut: bool) -> io::Result<()> {
    match cut {
        true => Err(io::Error::other("the power is cut")),
        false => Ok(()),
    }
}

impl Disk for Torn {
    fn read(&self, file: &Path) -> io::Result<Option<Vec<u8>>> {
        Ok(self.files.borrow().get(file).cloned())
    }

    fn create(&mut self, file: &Path, start: &[u8], length: u64) -> io::Result<()> {
        let cut = self.is_cut()?;
        let mut bytes = start.to_vec();
        bytes.resize(length as usize, 0);
        let left = match self.way {
            _ if !cut => Some(bytes),
            0 => None,
            1 => Some(Vec::new()),
            2 => Some(bytes[..bytes.len() / 2].to_vec()),
            3 => Some(vec![0xee; bytes.len()]),
            4 => Some(vec![1; bytes.len() + 1]),
            _ => Some(bytes),
        };
        if let Some(bytes) = left {
            self.files.borrow_mut().insert(file.to_path_buf(), bytes);
        }
        ended(cut)
    }

    fn write(&mut self, file: &Path, parts: &[Part]) -> io::Result<()> {
        let cut = self.is_cut()?;
        let mut files = self.files.borrow_mut();
        let bytes = files.get_mut(file).expect("a file that is there");
        for (number, (at, part)) in parts.iter().enumerate() {
            for (index, &byte) in part.iter().enumerate() {
                let reached = match self.way {
                    _ if !cut => true,
                    0 => false,
                    1 => number == 0,
                    2 => number + 1 == parts.len(),
                    3 => index < part.len() / 2,
                    4 => index % 2 == 1,
                    _ => true,
                };
                if reached {
                    bytes[*at as usize + index] = byte;
                }
            }
        }
        ended(cut)
    }

    fn rename(&mut self, from: &Path, to: &Path, force: bool) -> io::Result<()> {
        let cut = self.is_cut()?;
        if cut && self.way % 2 == 0 {
            return ended(cut);
        }
        let mut files = self.files.borrow_mut();
        if !force && files.contains_key(to) {
            return Err(io::ErrorKind::AlreadyExists.into());
        }
        let bytes = files.remove(from).expect("a file that is there");
        files.insert(to.to_path_buf(), bytes);
        ended(cut)
    }

    fn remove(&mut self, file: &Path) -> io::Result<()> {
        let cut = self.is_cut()?;
        if !(cut && self.way % 2 == 0) {
            self.files.borrow_mut().remove(file);
        }
        ended(cut)
    }
}

/// An image of four pieces, the last not full.
fn image() -> Vec<u8> {
    let lengths = [1000, 700, 12_345];
    let types = [
        SectionType::KERNEL,
        SectionType::COMMAND_LINE,
        SectionType::RAMDISK,
    ];
    let places = types.into_iter().zip(lengths);
    let plan = Plan {
        version: 2,
        places: places
            .map(|(kind, length)| Place::new(kind, DataLength(length)))
            .collect(),
        ..Plan::default()
    };
    let data: Vec<u8> = (0..14_045u32).map(|at| (at % 251) as u8 | 1).collect();
    eif::write_to_vec(&plan, &data).unwrap()
}

fn resumed(disk: &Torn) -> Transfer<Torn> {
    Transfer::resume(disk.clone(), OsStr::new("out"), false).unwrap()
}

/// Hands records over until the image is there, the disk stops or they end; so many at once, then keeps them.
fn hand_over(disk: &Torn, records: &[Vec<u8>], at_once: usize) -> Option<Taken> {
    let mut transfer = Transfer::resume(disk.clone(), OsStr::new("out"), false).ok()?;
    let mut last = None;
    for batch in records.chunks(at_once) {
        for record in batch {
            last = Some(transfer.take(record).ok()?);
            if last == Some(Taken::Image) {
                return last;
            }
        }
        transfer.keep().ok()?;
    }
    last
}

/// Every mark on the disk vouches for bytes that are there. Answers how many there are.
#[track_caller]
fn held(disk: &Torn, image: &[u8]) -> usize {
    let (Some(part), Some(marks)) = (disk.get("out.part"), disk.get("out.marks")) else {
        return 0;
    };
    let marks = &marks[assembler::open_record(0).len()..];
    let places = image.chunks(PIECE_LENGTH).zip(part.chunks(PIECE_LENGTH));
    let held = places.zip(marks).filter(|(_, &mark)| mark != 0);
    let held: Vec<_> = held.collect();
    assert!(held.iter().all(|((piece, there), _)| piece == there));
    held.len()
}

/// The records of the image, shuffled, with repeats.
fn shuffled(image: &[u8]) -> Vec<Vec<u8>> {
    let all: Vec<Vec<u8>> = assembler::records(image).collect();
    [0, 3, 1, 3, 4, 2, 1, 2, 5]
        .map(|at| all[at].clone())
        .to_vec()
}

/// Cut at every call, in every way, and taken up again: with all records, and with those alone that were not kept.
#[test]
fn a_cut_at_every_step() {
    let image = image();
    let records = shuffled(&image);
    for at_once in [1, 2, 20] {
        for way in 0..WAYS {
            let mut cuts = 0;
            loop {
                let disk = Torn::new().cut_after(cuts, way);
                let done = hand_over(&disk, &records, at_once);
                if done == Some(Taken::Image) {
                    break;
                }
                assert_eq!(done, None);
                held(&disk, &image);
                let disk = disk.again();
                if disk.get("out").is_none() {
                    let again = hand_over(&disk, &records, at_once);
                    assert_eq!(again, Some(Taken::Image), "{at_once} {way} {cuts}");
                } else {
                    assert!(!resumed(&disk).assembler.is_open());
                }
                assert_eq!(disk.get("out").as_deref(), Some(&image[..]));
                let names = disk.names();
                assert!(
                    names
                        .iter()
                        .all(|name| name == "out" || name == "out.marks.new"),
                    "{names:?}"
                );
                cuts += 1;
            }
            assert!(cuts > 5, "{cuts}");
        }
    }
}

/// Cut again and again, one step further each time: it comes to an end.
#[test]
fn cut_after_cut() {
    let image = image();
    let records = shuffled(&image);
    for way in 0..WAYS {
        let mut disk = Torn::new();
        let mut most = 0;
        for left in (0..).map(|turn| 3 + turn / 2) {
            disk = disk.cut_after(left, way);
            let done = hand_over(&disk, &records, 1);
            let now = held(&disk, &image);
            assert!(
                done.is_some() || disk.get("out").is_some() || now >= most,
                "lost"
            );
            most = now;
            if disk.get("out").is_some() {
                break;
            }
        }
        assert_eq!(disk.get("out").as_deref(), Some(&image[..]));
    }
}

/// What was kept is held: pieces that disagree are refused after a cut too, and need not come again.
#[test]
fn what_was_kept_is_held() {
    let image = image();
    let all: Vec<Vec<u8>> = assembler::records(&image).collect();
    let disk = Torn::new();
    for record in &all[..all.len() - 1] {
        let mut transfer = resumed(&disk);
        assert_eq!(transfer.take(record).unwrap(), Taken::Record);
        transfer.keep().unwrap();
        let mut other = record.clone();
        *other.last_mut().unwrap() ^= 1;
        let Taken::Refused(refusal) = resumed(&disk).take(&other).unwrap() else {
            panic!("taken with other bytes");
        };
        assert!([23, 25].contains(&refusal.number()));
        let again = resumed(&disk).take(record).unwrap();
        assert!(matches!(again, Taken::Record | Taken::Refused(_)));
        held(&disk, &image);
    }
    assert_eq!(
        resumed(&disk).take(all.last().unwrap()).unwrap(),
        Taken::Image
    );
    assert_eq!(disk.names(), ["out"]);
}

/// An image that is refused is left in the part file, and another transfer begins afresh.
#[test]
fn a_refused_image() {
    let good = image();
    let mut bad = good.clone();
    bad[700] ^= 1;
    let disk = Torn::new();
    let mut transfer = resumed(&disk);
    let mut last = None;
    for record in assembler::records(&bad) {
        last = Some(transfer.take(&record).unwrap());
    }
    assert!(matches!(last, Some(Taken::RefusedImage(refusal)) if refusal.number() == 13));
    assert_eq!(disk.names(), ["out.part"]);
    assert_eq!(disk.get("out.part"), Some(bad));
    for record in assembler::records(&good) {
        last = Some(transfer.take(&record).unwrap());
    }
    assert_eq!(last, Some(Taken::Image));
    assert_eq!(disk.get("out"), Some(good));
    assert_eq!(disk.names(), ["out"]);
}

/// Files that are not those of one transfer are not gone on with.
#[test]
fn files_that_do_not_belong_together() {
    let image = image();
    let disk = Torn::new();
    let records: Vec<Vec<u8>> = assembler::records(&image).collect();
    hand_over(&disk, &records[..3], 1);
    let whole = disk.get("out.marks").unwrap();
    let longer = [&whole[..], &[0]].concat();
    let mut other = whole.clone();
    other[10] ^= 1;
    for marks in [
        &[][..],
        &whole[..17],
        &whole[..whole.len() - 1],
        &longer,
        &other,
    ] {
        let disk = disk.again().cut_after(0, 0).again();
        disk.files
            .borrow_mut()
            .insert("out.marks".into(), marks.to_vec());
        assert!(Transfer::resume(disk, OsStr::new("out"), false).is_err());
    }
    disk.files
        .borrow_mut()
        .get_mut(Path::new("out.part"))
        .unwrap()
        .pop();
    assert!(Transfer::resume(disk, OsStr::new("out"), false).is_err());
}
