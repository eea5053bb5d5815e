//! Lines that the help texts of several subcommands have.

/// The option of one that writes to standard output or to a file.
pub const OUTPUT: &str =
    "  --output FILE   write to FILE, whole or not at all; otherwise to standard output\n";

/// The option of any that writes to a file.
pub const FORCE: &str = "  --force         replace FILE if it exists\n";

/// The option of one that shows each of its files.
pub const JSON: &str =
    "  --json    one object for each file, one a line; the manual lists the keys\n";

/// The exit status of one that writes what it takes from an image.
pub const WRITTEN: &str = "
Exit status: 0 written, 1 the image is refused, 2 wrong usage, input or output
trouble.
";

/// The exit status of one that reads each of its files.
pub const ACCEPTED: &str =
    "\nExit status: 0 all are accepted, 1 one is refused, 2 one cannot be read.\n";
