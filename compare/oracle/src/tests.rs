// SPDX-License-Identifier: Apache-2.0 AND BSD-3-Clause
//! The interpreter on scripts whose answers the language's page fixes, and the rule of what is compared.

use crate::domain::Outside;
use crate::Replay;

fn answers(script: &str) -> Vec<String> {
    let mut out = Vec::new();
    crate::run(script.as_bytes(), &mut out).unwrap();
    String::from_utf8(out).unwrap().lines().map(str::to_string).collect()
}

/// A ready queue of 4 places over 4,096 bytes: table at 0, available ring at 256, used ring at 512.
const READY: &str = "memory 4096\nqueue 8\nsize 4\navail 256 0\nused 512 0\nready 1\n";

fn after_ready(script: &str) -> Vec<String> {
    answers(&(READY.to_string() + script)).split_off(6)
}

/// Why the last line of a script can't be compared.
fn outside(script: &str) -> Option<Outside> {
    let mut replay = Replay::new();
    let (mut reason, mut out) = (None, Vec::new());
    for line in script.lines() {
        reason = replay.outside(line.as_bytes());
        replay.line(line.as_bytes(), &mut out);
    }
    reason
}

#[test]
fn a_request_from_begin_to_the_question() {
    let script = "desc 0 0x800 16 1 1\ndesc 16 0x900 32 2 0\nu16 0x102 1\nvalid\nbegin\nhead\nnext\nnext\nnext\n\
                  put 0 32\nquestion\nstate\ndump 0x200 12";
    let expected =
        "desc: ok, desc: ok, u16: ok, valid: yes, begin: ok, head: 0, next: 2048 16 1 1, next: 2304 32 2 0, \
                    next: none, put: ok, question: yes, state: 8 1 1 0 4 1 0 256 512, \
                    dump: 00 00 01 00 00 00 00 00 20 00 00 00";
    assert_eq!(after_ready(script).join(", "), expected);
}

#[test]
fn errors_come_in_their_order() {
    let long = "#".repeat(4096);
    let script = "nothing x\nput x\nput x 1\nput 1 2\n\nhead\nqueue 8\nhead\nnext\nu16 0 1\ndump 1 0\n";
    let expected = "error: line 1: too long, error: line 2: unknown command, error: line 3: wrong number of words, \
                    error: line 4: not a number, error: line 5: no queue, error: line 7: no queue, queue: ok, \
                    error: line 9: no pass, error: line 10: no chain, error: line 11: outside the image, \
                    error: line 12: outside the image";
    assert_eq!(answers(&format!("{long}\n{script}")).join(", "), expected);
}

#[test]
fn sums_of_images_and_chains() {
    let digits = "sum\nmemory 9\nbytes 0 49 50 51 52 53 54 55 56 57\nsum";
    assert_eq!(answers(digits), ["sum: 00000000", "memory: 9", "bytes: 9", "sum: cbf43926"]);
    // 16 zero bytes, and then nothing.
    assert_eq!(after_ready("chain 1\nwalk\nwalk"), ["chain: 1", "walk: 1 ecbb4b55", "walk: 0 00000000"]);
}

#[test]
fn filtered_walks_leave_the_chain_where_they_stopped() {
    let script =
        "desc 0 1 1 1 1\ndesc 16 2 2 3 2\ndesc 32 3 3 1 3\ndesc 48 4 4 2 0\nchain 0\nwritable\nnext\nreadable\nnext";
    assert_eq!(after_ready(script)[5..], ["writable: 2 2 3 2", "next: 3 3 1 3", "readable: none", "next: none"]);
}

#[test]
fn a_pass_sees_a_new_region_and_keeps_its_idx() {
    let script =
        "u16 258 3\nbegin\nu16 258 9\nregion 0x100 4 0x100\nhead\nregion 0x104 64 0x104\nhead\nhead\nhead\nhead";
    let expected = "u16: ok, begin: ok, u16: ok, region: ok, head: none, region: ok, head: 0, head: 0, head: 0, \
                    head: none";
    assert_eq!(after_ready(script).join(", "), expected);
}

#[test]
fn tables_of_regions() {
    let script =
        "memory 64\nregion 0 0 0\nregion 0 65 0\nregion 0xffffffffffffffff 2 0\nregion 0xffffffffffffffff 1 0\n\
                  region 8 8 0\nregion 0 9 0\nregion 15 1 0\nregion 16 8 0\nregion 0 8 56";
    let expected = [
        "refused empty",
        "refused beyond the image",
        "refused beyond 2^64",
        "ok",
        "ok",
        "refused overlap",
        "refused overlap",
        "ok",
        "ok",
    ];
    let found = answers(script);
    assert_eq!(found[1..], expected.map(|answer| format!("region: {answer}")));
}

#[test]
fn a_ninth_region_is_refused_before_all_else() {
    let eight: String = (0..8).map(|i| format!("\nregion {} 2 0", 2 * i)).collect();
    let found = answers(&format!("memory 64{eight}\nregion 0 0 64\nregion 16 2 0"));
    assert_eq!(found[8..], ["region: ok", "region: refused full", "region: refused full"]);
}

#[test]
fn what_stays_out_of_the_comparison() {
    let ready = |script: &str| outside(&(READY.to_string() + script));
    assert_eq!(ready("u16 258 2\nbegin\nhead\nback\nchain 0\nnext\nu16 0 0\nbogus\nhead"), None);
    assert_eq!(ready("u16 258 2\nbegin\nhead\nvalid\nhead"), Some(Outside::InterruptedPass));
    assert_eq!(ready("u16 258 2\nbegin\nhead\nvalid\npop"), None);
    assert_eq!(outside("memory 64\nregion 1 2 0"), Some(Outside::OddRegion));
    assert_eq!(outside("memory 64\nregion 2 3 0"), Some(Outside::OddRegion));
    assert_eq!(outside("memory 64\nregion 2 2 1"), Some(Outside::OddRegion));
    assert_eq!(outside("memory 64\nregion 0xfffffffffffffffe 2 0"), Some(Outside::RegionToTheEnd));
    assert_eq!(outside("memory 64\nregion 0xfffffffffffffffe 4 0"), None);
    assert_eq!(outside("memory 62\nqueue 8\nused 48 0\nput 0 0"), None);
    assert_eq!(outside("memory 62\nqueue 8\nused 48 0\nput 0 0\nput 0 0"), Some(Outside::StraddlingEntry));
    assert_eq!(outside("memory 60\nqueue 8\nused 48 0\nput 0 0\nput 0 0"), None);
    assert_eq!(outside("memory 64\nregion 20 16 0\nqueue 8\nused 16 0\nput 0 0"), Some(Outside::UnwritableIdx));
    assert_eq!(outside("memory 64\nregion 20 16 0\nqueue 8\nused 16 0\nput 8 0"), None);
    assert_eq!(ready("desc 0 0 0 1 1\ndesc 16 0 0 4 0\nchain 0\nnext\nnext"), Some(Outside::Indirect));
    assert_eq!(ready("desc 0 0 0 1 1\ndesc 16 0 0 4 0\nchain 0\nwalk"), Some(Outside::Indirect));
    assert_eq!(ready("desc 0 0 0 0 1\ndesc 16 0 0 4 0\nchain 0\nwalk"), None);
}
