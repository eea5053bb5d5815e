//! `eif split` and `eif assemble`: images by way of records, power cuts, and records that are refused.

mod common;

use common::{Ended, Folder};
use eif::assembler::{close_record, open_record, piece_record, records, PIECE_LENGTH};
use std::fs;
use std::io::Write;
use std::process::{Child, Stdio};
use std::thread;
use std::time::{Duration, Instant};

/// A folder with an image of five pieces, the last not full, in `good`; its bytes, and its records.
fn prepared() -> (Folder, Vec<u8>, Vec<Vec<u8>>) {
    let folder = Folder::new();
    let ramdisk: Vec<u8> = (0..17_000u32).map(|at| (at % 249) as u8).collect();
    folder.put("ramdisk", ramdisk);
    folder.put("kernel", b"the kernel");
    folder
        .eif("pack --kernel kernel --cmdline quiet --ramdisk ramdisk --output good")
        .says(0, "");
    let image = folder.get("good");
    let all: Vec<Vec<u8>> = records(&image).collect();
    assert_eq!(all.len(), 7);
    (folder, image, all)
}

/// Nothing of a transfer is left but the image.
#[track_caller]
fn is_whole(folder: &Folder, image: &[u8]) {
    assert_eq!(folder.get("out"), image);
    let names = folder.names();
    assert!(
        !names.iter().any(|name| name.starts_with("out.")),
        "{names:?}"
    );
}

#[test]
fn there_and_back() {
    let (folder, image, all) = prepared();
    folder.eif("split good --output sent").says(0, "");
    assert_eq!(folder.get("sent"), all.concat());
    let ended = folder.eif("split good");
    assert_eq!((ended.status, ended.out), (0, all.concat()));
    folder
        .eif("assemble --output out sent")
        .says(0, "out: accepted\n");
    is_whole(&folder, &image);
    folder
        .eif("assemble --output out sent")
        .complains(2, "eif: out: exists; --force replaces it\n");
    fs::remove_file(folder.path("out")).unwrap();
    let ended = folder.eif_with_input("assemble --output out", &all.concat());
    ended.says(0, "out: accepted\n");
    is_whole(&folder, &image);
    let ended = folder.eif_with_input("assemble --output out --force -", &all.concat());
    ended.says(0, "out: accepted\n");
    is_whole(&folder, &image);
}

/// Each record a file of its own, the pieces backwards and twice.
#[test]
fn any_order_and_any_repeats() {
    let (folder, image, all) = prepared();
    for (at, record) in all.iter().enumerate() {
        folder.put(format!("r{at}"), record);
    }
    let words = "assemble --output out r0 r5 r4 r4 r2 r5 r1 r3 r2 r6";
    folder.eif(words).says(0, "out: accepted\n");
    is_whole(&folder, &image);
}

#[test]
fn a_refused_image_is_not_split() {
    let (folder, mut image, _) = prepared();
    image[600] ^= 1;
    folder.put("bad", image);
    let ended = folder.eif("split bad --output sent");
    ended.complains(
        1,
        "bad: refused 13 at 0 byte 544: checksum differs\n  byte 544: the checksum\n  what to do: fetch it again\n",
    );
    assert!(!folder.path("sent").exists());
}

/// What is missing is told, nothing is lost, and a close that comes too early is refused.
#[test]
fn stopped_and_taken_up_again() {
    let (folder, image, all) = prepared();
    folder.put("some", [&all[0][..], &all[1], &all[3], &all[6]].concat());
    let ended = folder.eif("assemble --output out some");
    assert_eq!(
        (ended.status, ended.text()),
        (
            1,
            "out: not closed yet: 2 of 5 pieces held, the first missing at byte 4096\n"
        )
    );
    assert_eq!(
        ended.error,
        "some: record 3: refused 26 at 0 byte 0: close record with a piece missing\n"
    );
    assert!(!folder.path("out").exists());
    assert_eq!(folder.get("out.part").len(), image.len());
    assert_eq!(
        folder.get("out.marks"),
        [&all[0][..], &[1, 0, 1, 0, 0]].concat()
    );

    // All of them once more: the open record is refused, and that is no harm.
    folder.put("all", all.concat());
    let ended = folder.eif("assemble --output out all");
    assert_eq!((ended.status, ended.text()), (0, "out: accepted\n"));
    assert_eq!(
        ended.error,
        "all: record 0: refused 23 at 0 byte 0: open record while a transfer is open, or another record while none is\n"
    );
    is_whole(&folder, &image);
}

/// A line of refusal: which record of `sent`, and the number it got.
fn refusal(line: &str) -> (u32, u32) {
    let rest = line.strip_prefix("sent: record ").unwrap();
    let (record, rest) = rest.split_once(": refused ").unwrap();
    let (number, _) = rest.split_once(" at 0 byte 0: ").unwrap();
    (record.parse().unwrap(), number.parse().unwrap())
}

/// Records that are damaged, foreign, too long or cut change nothing.
#[test]
fn records_that_are_refused() {
    let (folder, image, all) = prepared();
    let mut other = all[2].clone();
    other[100] ^= 1;
    let mut kind = all[2].clone();
    kind[8] = 7;
    let long = piece_record(0, &[1; 10_000]);
    let foreign = piece_record(1 << 40, &[1; 4096]);
    let sent = [
        &all[1][..],
        &open_record(u64::MAX),
        &all[0],
        &all[2],
        &other,
        &kind,
        &long,
        &foreign,
        &piece_record(4096, &[1; 4095]),
        &close_record(),
        &all[1][..3000],
    ];
    folder.put("sent", sent.concat());
    let ended = folder.eif("assemble --output out sent");
    assert_eq!(ended.status, 1);
    let refused: Vec<_> = ended.error.lines().map(refusal).collect();
    assert_eq!(
        refused.iter().map(|r| r.0).collect::<Vec<_>>(),
        [0, 1, 4, 5, 6, 7, 8, 9, 10]
    );
    assert_eq!(
        refused.iter().map(|r| r.1).collect::<Vec<_>>(),
        [23, 1, 25, 22, 22, 22, 22, 26, 22]
    );
    assert_eq!(folder.get("out.marks")[18..], [0, 1, 0, 0, 0]);
    folder.put("rest", all[1..].concat());
    folder
        .eif("assemble --output out rest")
        .says(0, "out: accepted\n");
    is_whole(&folder, &image);
}

/// The image is checked at the close. One that is refused is left to be looked at, and does not get its name.
#[test]
fn an_image_that_is_refused() {
    let (folder, image, all) = prepared();
    let mut bad = image.clone();
    bad[5000] ^= 1;
    folder.put("bad", records(&bad).collect::<Vec<_>>().concat());
    let ended = folder.eif("assemble --output out bad");
    ended.says(
        1,
        "out.part: refused 13 at 0 byte 544: checksum differs\n  byte 544: the checksum\n  what to do: fetch it again\n\
         out: no transfer is open\n",
    );
    assert_eq!(folder.get("out.part"), bad);
    assert!(!folder.path("out").exists() && !folder.path("out.marks").exists());
    folder.put("sent", all.concat());
    folder
        .eif("assemble --output out sent")
        .says(0, "out: accepted\n");
    is_whole(&folder, &image);
    // One after the other in one input: the first is refused, the second is taken.
    fs::remove_file(folder.path("out")).unwrap();
    let both = [folder.get("bad"), folder.get("sent")].concat();
    let ended = folder.eif_with_input("assemble --output out", &both);
    ended.ends(0, "what to do: fetch it again\nout: accepted\n");
    is_whole(&folder, &image);
}

/// The command with a pipe to its standard input.
struct Running(Child);

impl Running {
    fn start(folder: &Folder) -> Running {
        let mut command = folder.command(["assemble", "--output", "out"]);
        command.stdin(Stdio::piped());
        command.stdout(Stdio::piped()).stderr(Stdio::piped());
        Running(command.spawn().expect("the command runs"))
    }

    fn send(&mut self, record: &[u8]) {
        let pipe = self.0.stdin.as_mut().expect("a pipe");
        pipe.write_all(record).expect("the record is taken");
    }

    /// Stops it as a power cut does: nothing more is done.
    fn kill(mut self) -> String {
        self.0.kill().expect("it is stopped");
        let output = self.0.wait_with_output().expect("it has ended");
        String::from_utf8(output.stderr).expect("text")
    }

    fn end(mut self) -> Ended {
        drop(self.0.stdin.take());
        self.0.wait_with_output().expect("it ends").into()
    }
}

/// Waits until the disk says so.
#[track_caller]
fn wait_until(what: &str, done: impl Fn() -> bool) {
    let start = Instant::now();
    while !done() {
        assert!(start.elapsed() < Duration::from_secs(20), "{what}");
        thread::sleep(Duration::from_millis(2));
    }
}

fn marks(folder: &Folder) -> Vec<u8> {
    let file = fs::read(folder.path("out.marks")).unwrap_or_default();
    file.get(18..).unwrap_or_default().to_vec()
}

/// Stopped after each record, and started again for the next: each comes once, and nothing is lost. A record with
/// other bytes for a piece that is held is refused after each cut.
#[test]
fn stopped_at_each_record() {
    let (folder, image, all) = prepared();
    for (index, record) in all[..6].iter().enumerate() {
        let mut running = Running::start(&folder);
        let mut clashes = 0;
        for place in 0..index.saturating_sub(1) {
            let mut other = all[1 + place].clone();
            *other.last_mut().unwrap() ^= 1;
            running.send(&other);
            clashes += 1;
        }
        running.send(record);
        wait_until("on the disk", || match index {
            0 => folder.path("out.marks").exists(),
            _ => marks(&folder).get(index - 1) == Some(&1),
        });
        let error = running.kill();
        assert_eq!(
            error.matches(": refused 25 at 0 byte 0: ").count(),
            clashes,
            "{error}"
        );
        let held: Vec<u8> = (1..6).map(|place| u8::from(place <= index)).collect();
        assert_eq!(marks(&folder), held);
        let part = folder.get("out.part");
        let there = image.len().min(index * PIECE_LENGTH);
        assert_eq!(part[..there], image[..there]);
    }
    let mut running = Running::start(&folder);
    running.send(&all[6]);
    running.end().says(0, "out: accepted\n");
    is_whole(&folder, &image);
}

/// Stopped at any moment, and all sent again until it is there.
#[test]
fn stopped_at_any_moment() {
    let (folder, image, all) = prepared();
    for turn in 0..60u64 {
        let mut running = Running::start(&folder);
        let batch = all[..6].concat();
        let cut = (turn as usize * 7919) % batch.len();
        running.send(&batch[..cut]);
        thread::sleep(Duration::from_micros(turn * 137 % 4000));
        running.kill();
        let part = fs::read(folder.path("out.part")).unwrap_or_default();
        for (place, _) in marks(&folder)
            .iter()
            .enumerate()
            .filter(|(_, &mark)| mark != 0)
        {
            let start = place * PIECE_LENGTH;
            let end = image.len().min(start + PIECE_LENGTH);
            assert_eq!(
                part[start..end],
                image[start..end],
                "a mark without its bytes"
            );
        }
    }
    let ended = folder.eif_with_input("assemble --output out", &all.concat());
    assert_eq!((ended.status, ended.text()), (0, "out: accepted\n"));
    is_whole(&folder, &image);
}

/// A cut between the image's name and the end of the marks: the image stays, the marks go.
#[test]
fn marks_that_were_left_behind() {
    let (folder, image, all) = prepared();
    folder.put("sent", all.concat());
    folder
        .eif("assemble --output out sent")
        .says(0, "out: accepted\n");
    folder.put("out.marks", [&all[0][..], &[1; 5]].concat());
    let ended = folder.eif("assemble --output out sent");
    ended.complains(2, "eif: out: exists; --force replaces it\n");
    is_whole(&folder, &image);
}

#[test]
fn files_that_are_none_of_a_transfer() {
    let (folder, _, all) = prepared();
    folder.put("sent", all.concat());
    folder.put("out.part", [0; 100]);
    folder.put("out.marks", b"something else");
    let names = folder.names();
    let error =
        "eif: out.marks: not the marks of the .part file beside it; remove both to begin again\n";
    folder.eif("assemble --output out sent").complains(2, error);
    assert_eq!(folder.names(), names);
    fs::remove_file(folder.path("out.marks")).unwrap();
    folder
        .eif("assemble --output out sent")
        .says(0, "out: accepted\n");
}

#[test]
fn places_where_no_image_can_be() {
    let (folder, _, all) = prepared();
    folder.put("sent", all.concat());
    fs::create_dir(folder.path("folder")).unwrap();
    let names = folder.names();
    let not_a_file = "is there and is not a file that can be replaced";
    for output in ["folder", "/dev/null", "/dev/full"] {
        let ended = folder.eif(&format!("assemble --force --output {output} sent"));
        ended.complains(2, &format!("eif: {output}: {not_a_file}\n"));
    }
    let ended = folder.eif("assemble --output gone/out sent");
    ended.complains(2, "eif: gone/out: No such file or directory (os error 2)\n");
    assert_eq!(folder.names(), names);
    // One that came up meanwhile is not replaced, and the transfer can be closed again.
    let mut running = Running::start(&folder);
    running.send(&all[..6].concat());
    wait_until("held", || marks(&folder) == [1; 5]);
    folder.put("out", b"another");
    running.send(&all[6]);
    let ended = running.end();
    ended.complains(2, "eif: out: exists; --force replaces it\n");
    assert_eq!(folder.get("out"), b"another");
    let ended = folder.eif_with_input("assemble --force --output out", &all[6]);
    ended.says(0, "out: accepted\n");
    is_whole(&folder, &folder.get("good"));
}

/// A disk that fills up: a file limit does for it. What was kept stays, and the transfer goes on with more room.
#[test]
fn a_disk_that_fills_up() {
    let (folder, image, all) = prepared();
    folder.put("sent", all.concat());
    folder.put("some", all[..3].concat());
    let limited = |blocks: &str| -> Ended {
        let script = "trap '' XFSZ; ulimit -f \"$1\"; exec \"$0\" assemble --output out sent";
        let mut command = std::process::Command::new("sh");
        command.args(["-c", script, env!("CARGO_BIN_EXE_eif"), blocks]);
        let output = command.current_dir(folder.path("")).output();
        output.expect("the command runs").into()
    };
    // No room for the image at its open record.
    let error = "eif: out: File too large (os error 27)\n";
    limited("4").complains(2, error);
    assert!(!folder.path("out.marks").exists() && !folder.path("out").exists());
    // No room for a piece of an open transfer.
    assert_eq!(folder.eif("assemble --output out some").status, 1);
    let ended = limited("16");
    assert_eq!((ended.status, ended.text()), (2, ""));
    assert!(ended.error.ends_with(error), "{}", ended.error);
    assert_eq!(marks(&folder), [1, 1, 0, 0, 0]);
    assert_eq!(
        folder.eif("assemble --output out sent").text(),
        "out: accepted\n"
    );
    is_whole(&folder, &image);
}

/// An input that cannot be read is told of; what the others bring is taken.
#[test]
fn an_input_that_is_not_there() {
    let (folder, image, all) = prepared();
    folder.put("first", all[..3].concat());
    folder.put("second", all[3..].concat());
    let ended = folder.eif("assemble --output out first gone second");
    assert_eq!((ended.status, ended.text()), (0, "out: accepted\n"));
    assert_eq!(
        ended.error,
        "eif: gone: No such file or directory (os error 2)\n"
    );
    is_whole(&folder, &image);
    fs::remove_file(folder.path("out")).unwrap();
    let ended = folder.eif("assemble --output out first gone");
    assert_eq!(ended.status, 2);
    assert_eq!(
        ended.text(),
        "out: not closed yet: 2 of 5 pieces held, the first missing at byte 8192\n"
    );
}

#[test]
fn nothing_at_all() {
    let folder = Folder::new();
    let ended = folder.eif_with_input("assemble --output out", b"");
    ended.says(1, "out: no transfer is open\n");
    assert!(folder.names().is_empty());
    let sent = [open_record(0), close_record()].concat();
    let ended = folder.eif_with_input("assemble --output out", &sent);
    ended.starts(1, "out.part: refused 2 at 0 byte 0: ");
    assert_eq!(folder.names(), ["out.part"]);
}
