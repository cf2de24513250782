//! Each call over the samples in the folder that `MRT_DATA` names.

use mrt::{Area, Node, Status};
use std::net::Ipv4Addr;

fn sample(name: &str) -> Vec<u8> {
    let folder = std::env::var("MRT_DATA").expect("MRT_DATA names no folder");
    std::fs::read(format!("{folder}/{name}")).expect(name)
}

fn router(last: u8) -> Ipv4Addr {
    Ipv4Addr::new(10, 255, 1, last)
}

/// Runs a test over the area of seven nodes.
fn in_lan(test: impl FnOnce(Area<'_>)) {
    let (lsas, profile) = (sample("lan.lsas"), sample("lan.profile"));
    test(Area {
        lsas: &lsas,
        profile: &profile,
    });
}

#[test]
fn a_certificate_is_accepted() {
    in_lan(|area| {
        let island = area.island(router(4)).unwrap();
        let certificate = area.certify(router(4)).unwrap();
        assert_eq!(certificate.len(), island.certificate);
        let verdict = area.check(&certificate).unwrap();
        assert_eq!(
            (verdict.root, verdict.nodes, verdict.links),
            (router(1), 7, 8)
        );
        let fault = area.check(&certificate[1..]).unwrap_err();
        assert_eq!(fault.status, Status::BadCertificate);
        assert_eq!(fault.to_string(), "mrt: bad certificate: magic at 0");
    });
}

#[test]
fn a_row_is_that_of_the_table() {
    in_lan(|area| {
        let rows = area.table(router(1)).unwrap();
        assert_eq!(rows.len(), 6);
        for row in rows {
            assert_eq!(area.row_for(router(1), row.node), Ok(row));
        }
        let fault = area
            .row_for(router(1), Node::Network(router(1)))
            .unwrap_err();
        assert_eq!(
            (fault.status, fault.at),
            (Status::NotThere, router(1).into())
        );
    });
}

#[test]
fn the_top_call_writes_what_rows_are() {
    in_lan(|area| {
        let files: [(&[u8], &[u8]); 2] = [(b"db", area.lsas), (b"profile", area.profile)];
        let text = mrt::run(&[b"table", b"db", b"profile", b"10.255.1.1"], &files).unwrap();
        let rows = area.table(router(1)).unwrap();
        let lines: Vec<String> = rows.iter().map(|row| format!("{row}\n")).collect();
        assert!(String::from_utf8(text).unwrap().ends_with(&lines.concat()));
        let fault = mrt::run(&[b"table", b"db", b"none", b"10.255.1.1"], &files).unwrap_err();
        assert_eq!((fault.status, fault.at), (Status::ReadFault, 2));
        assert_eq!(fault.to_string(), "mrt: read fault: word 2");
    });
}

#[test]
fn a_row_for_a_prefix_is_the_line_of_its_text() {
    in_lan(|area| {
        let files: [(&[u8], &[u8]); 2] = [(b"db", area.lsas), (b"profile", area.profile)];
        let words: [&[u8]; 6] = [
            b"proxy",
            b"db",
            b"profile",
            b"10.255.1.1",
            b"10.255.1.1",
            b"10.255.1.2",
        ];
        let text = String::from_utf8(mrt::run(&words, &files).unwrap()).unwrap();
        let pairs =
            [(1, 2), (1, 1), (2, 9), (2, 3)].map(|(one, other)| (router(one), router(other)));
        let rows = area.proxy(router(1), &pairs).unwrap();
        let line = format!("10.255.1.1 {}", rows[0].unwrap());
        assert!(text.lines().any(|it| it == line), "{line}");
        let refused: Vec<(Status, u32)> = rows[1..]
            .iter()
            .map(|row| row.unwrap_err())
            .map(|fault| (fault.status, fault.at))
            .collect();
        let nine = router(9).into();
        assert_eq!(
            refused,
            [
                (Status::Usage, 0),
                (Status::NotThere, nine),
                (Status::NoCommonBlock, 0)
            ]
        );
        assert_eq!(area.proxy(router(1), &[]), Ok(Vec::new()));
    });
}

#[test]
fn there_is_an_interface() {
    assert!(mrt::abi() >= 1);
}
