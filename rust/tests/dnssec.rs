//! The sums of DNSSEC, by the examples of RFC 6605, section 6.1, RFC 5155, appendix A, RFC 8976, appendix A, and by the
//! names of RFC 4035, appendix A.
use dns_names_wire::dnssec::{ds_digest, key_tag, nsec3_covers, nsec_covers, zone_digest, Nsec3Params};
use dns_names_wire::{ErrorKind, Name, RecordBuf};

const KEY: &str = "example.net. 3600 IN DNSKEY 257 3 13 \
    GojIhhXUN/u4v54ZQqGSnyhWJwaubCvTmeexv7bR6edbkrSqQpF64cYbcB7wNcP+e+MAnLr+Wi9xMWyQLc8NAA==";
const DIGEST: &str = "b4c8c1fe2e7477127b27115656ad6256f424625bf5c1e2770ce6d6e37df61d17";
const ZONE: [&str; 6] = [
    "example. 86400 IN SOA ns1.example. admin.example. 2018031900 1800 900 604800 86400",
    "example. 86400 IN NS ns1.example.",
    "example. 86400 IN NS ns2.example.",
    "example. 86400 IN ZONEMD 2018031900 1 1 \
        c68090d90a7aed716bc459f9340e3d7c1370d4d24b7e2fc3a1ddc0b9a87153b9a9713b3c9ae5cc27777f98b8e730044c",
    "ns1.example. 3600 IN A 203.0.113.63",
    "ns2.example. 3600 IN AAAA 2001:db8::63",
];
const ZONE_DIGEST: &str =
    "c68090d90a7aed716bc459f9340e3d7c1370d4d24b7e2fc3a1ddc0b9a87153b9a9713b3c9ae5cc27777f98b8e730044c";

fn name(text: &str) -> Name {
    text.parse().unwrap()
}

fn hex(octets: &[u8]) -> String {
    octets.iter().map(|octet| format!("{octet:02x}")).collect()
}

#[test]
fn a_key_has_its_tag_and_its_digest() {
    let key: RecordBuf = KEY.parse().unwrap();
    let data = key.as_record().raw_data();
    assert_eq!(key_tag(data), Ok(55648));
    assert_eq!(hex(&ds_digest(&name("Example.NET."), data, 2).unwrap()), DIGEST);
    assert_eq!(key_tag(&[1, 0, 3, 1, 0xaa, 0xbb, 0xcc]), Ok(0xaabb));
    assert_eq!(key_tag(&data[..3]).unwrap_err().kind(), ErrorKind::NotDnskey);
    assert_eq!(ds_digest(&name("a."), data, 3).unwrap_err().kind(), ErrorKind::UnknownAlgorithm);
    assert_eq!(ds_digest(&name("a."), &[], 3).unwrap_err().kind(), ErrorKind::NotDnskey);
}

#[test]
fn names_are_hashed() {
    let params = Nsec3Params { algorithm: 1, iterations: 12, salt: b"\xaa\xbb\xcc\xdd", max_iterations: 12 };
    for (text, label) in [
        ("example.", "0p9mhaveqvm6t7vbl5lop2u3t2rp3tom"),
        ("NS1.example.", "2t7b4g4vsa5smi47k61mv5bv1a22bojr"),
        ("*.w.example.", "r53bq7cc2uvmubfu5ocmm6pers9tk9en"),
    ] {
        assert_eq!(params.label(&name(text)).unwrap(), label);
    }
    assert_eq!(params.hash(&name("example.")).unwrap()[..4], [0x06, 0x53, 0x68, 0xab]);
    let fewer = Nsec3Params { max_iterations: 11, ..params };
    assert_eq!(fewer.hash(&name("example.")).unwrap_err().kind(), ErrorKind::TooManyIterations);
    let other = Nsec3Params { algorithm: 2, ..params };
    assert_eq!(other.label(&name("example.")).unwrap_err().kind(), ErrorKind::UnknownAlgorithm);
}

#[test]
fn records_cover_what_is_between_their_names() {
    let [apex, b, ns1, xx] = ["example.", "b.example.", "ns1.example.", "xx.example."].map(name);
    assert!(nsec_covers(&b, &ns1, &name("ML.example.")));
    assert!(!nsec_covers(&b, &ns1, &b) && !nsec_covers(&b, &ns1, &ns1) && !nsec_covers(&b, &ns1, &apex));
    assert!(nsec_covers(&xx, &apex, &name("zz.example.")));
    assert!(!nsec_covers(&xx, &apex, &b) && !nsec_covers(&xx, &apex, &name("test.")));
    assert!(nsec_covers(&apex, &apex, &b) && !nsec_covers(&apex, &apex, &apex));
    let hash = |octet| [octet; 20];
    assert!(nsec3_covers(&hash(2), &hash(5), &hash(3)) && !nsec3_covers(&hash(2), &hash(5), &hash(5)));
    assert!(nsec3_covers(&hash(5), &hash(2), &hash(1)) && !nsec3_covers(&hash(5), &hash(5), &hash(5)));
}

#[test]
fn a_zone_has_its_digest() {
    let zone = ZONE.map(|line| line.parse::<RecordBuf>().unwrap());
    assert_eq!(hex(&zone_digest(&name("EXAMPLE."), &zone, 1).unwrap()), ZONE_DIGEST);
    let twice = zone.iter().rev().chain(&zone);
    assert_eq!(hex(&zone_digest(&name("example."), twice, 1).unwrap()), ZONE_DIGEST);
    assert_eq!(zone_digest(&name("example."), &zone, 2).unwrap().len(), 64);
    assert_eq!(zone_digest(&name("example."), &zone, 3).unwrap_err().kind(), ErrorKind::UnknownAlgorithm);
}

#[test]
fn records_out_of_the_zone_are_left_out() {
    let mut zone = ZONE.map(|line| line.parse::<RecordBuf>().unwrap()).to_vec();
    for owner in ["foo.test.", "notexample.", "ample.", "."] {
        zone.insert(0, format!("{owner} 60 IN A 192.0.2.1").parse().unwrap());
        assert_eq!(hex(&zone_digest(&name("example."), &zone, 1).unwrap()), ZONE_DIGEST);
    }
    zone.push("foo.EXAMPLE. 60 IN A 192.0.2.1".parse().unwrap());
    assert_ne!(hex(&zone_digest(&name("example."), &zone, 1).unwrap()), ZONE_DIGEST);
}

/// The zones of RFC 8976, appendix A, and one whose digests are those of dnspython, with their ZONEMD records. The packed crate
/// has no such files.
#[cfg(feature = "std")]
#[test]
fn zones_have_their_digests() {
    use dns_names_wire::{RData, ZoneFile};

    let folder = std::path::Path::new(env!("CARGO_MANIFEST_DIR")).join("../diff/included/digests");
    if !folder.is_dir() {
        return;
    }
    for (file, apex, count) in [
        ("simple", "example.", 1),
        ("complex", "example.", 1),
        ("multiple", "example.", 2),
        ("uri.arpa", "uri.arpa.", 1),
        ("root-servers.net", "root-servers.net.", 1),
        ("outside", "example.", 2),
    ] {
        let apex = name(apex);
        let records = ZoneFile::open(folder.join(format!("{file}.zone")), &apex).unwrap();
        let zone: Vec<RecordBuf> = records.map(Result::unwrap).collect();
        let mut digests = 0;
        for record in zone.iter().map(RecordBuf::as_record).filter(|record| record.owner() == apex) {
            match record.data().unwrap() {
                RData::ZONEMD(it) if it.scheme == 1 && it.hash_algorithm <= 2 => {
                    assert_eq!(hex(&zone_digest(&apex, &zone, it.hash_algorithm).unwrap()), hex(it.digest), "{file}");
                    digests += 1;
                }
                _ => {}
            }
        }
        assert_eq!(digests, count, "{file}");
    }
}
