//! Netpbm's files go in and out through pipes, where its programs are installed.

mod common;

use common::{file, report, sample, Folder};

#[test]
fn pipes() {
    let folder = Folder::new();
    let wanted = "for tool in pnmtopng pngtopnm ppmtopgm pgmtopbm pbmtopgm; do command -v $tool >/dev/null || exit 1; done";
    if folder.shell(wanted).status != 0 {
        report("netpbm is not installed: its pipes are not tried");
        return;
    }
    let (median, worn) = (sample("median.mtb"), sample("worn.pbm"));
    let photo = folder.shell(&format!("pnmtopng {worn} >worn.png"));
    assert_eq!(photo.status, 0, "{}", photo.err);
    let line = format!(
        "set -o pipefail; pngtopnm worn.png | ppmtopgm | pgmtopbm -threshold | \"$MASK\" clean {median} - - | pnmtopng >clean.png"
    );
    let cleaned = folder.shell(&line);
    assert_eq!(
        (cleaned.status, cleaned.err.lines().last()),
        (0, Some("64 22 5 27 57"))
    );
    let back = folder.shell("pngtopnm clean.png | ppmtopgm | pgmtopbm -threshold");
    assert_eq!(back.out, file("tests/worn_clean.pbm"));
    let shown =
        folder.shell("pngtopnm clean.png | ppmtopgm | pgmtopbm -threshold | \"$MASK\" show -");
    assert_eq!(shown.out, folder.mask_with(&["show", "-"], &back.out).out);
    report("pipes of netpbm: 3");
}
