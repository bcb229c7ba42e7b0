//! Links the calls of a report, of a feeder and of a report file, and those that read a sheet back.
mod link;

fn main() {
    link::link(&["report_c", "feeder_c", "report_file_c", "reader_c"]);
}
