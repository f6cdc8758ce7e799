//! Families of names that zones and resolvers have in numbers: each is made by a pattern, from the number of a name.
use super::Random;

pub struct Family {
    pub name: &'static str,
    pub what: &'static str,
    /// How many names of it are worked on.
    pub count: usize,
    pub pattern: fn(usize) -> String,
}

const FEW: usize = 20;

pub fn all() -> Vec<Family> {
    let family = |name, what, count, pattern| Family { name, what, count, pattern };
    vec![
        family("racks", "20 numbered racks of a data centre", FEW, rack),
        family("pods", "20 names of pods of Kubernetes", FEW, pod),
        family("services", "20 names of services of Kubernetes", FEW, service),
        family("mail", "20 names of mail zones", FEW, mail_name),
        family("exchanges", "20 names of mail exchanges", FEW, exchange),
        family("policy", "20 names of a policy zone", FEW, policy),
        family("countries", "20 names of delegations of country codes", FEW, country),
        family("nsec", "20 names of a chain of NSEC records, each as next name and as owner", FEW, next),
        family("nsec3", "20 owners of NSEC3 records", FEW, hashed),
        family("idn", "20 names with labels in punycode", FEW, idn),
        family("ip6", "20 reverse names of one IPv6 network", FEW, reverse_ipv6),
        family("last", "120 names of 255 octets that differ in the last label", 120, differs_last),
    ]
}

fn rack(i: usize) -> String {
    format!("r{:02}-u{:02}.dc1.example.net.", i / 5, i % 5)
}

fn pod(i: usize) -> String {
    format!("10-42-{}-{}.{}.pod.cluster.local.", i % 4, 7 * i, ["default", "kube-system"][i % 2])
}

const SERVICES: [&str; 10] =
    ["api", "cart", "checkout", "frontend", "grafana", "ingress", "ledger", "orders", "redis", "users"];

fn service(i: usize) -> String {
    format!("_http._tcp.{}.{}.svc.cluster.local.", SERVICES[i % 10], ["shop", "monitoring"][i / 10])
}

/// The names of five mail zones: a zone, and what stands below it.
fn mail_name(i: usize) -> String {
    let below = ["", "mail.", "_dmarc.", "s1._domainkey."][i % 4];
    format!("{below}customer{}.example.", i / 4)
}

/// The data of MX records: hosts of the zone itself, and of two large providers.
fn exchange(i: usize) -> String {
    let zone = i / 4;
    match i % 4 {
        0 => format!("mx1.customer{zone}.example."),
        1 => format!("mx2.customer{zone}.example."),
        2 => format!("alt{zone}.aspmx.l.example.com."),
        _ => format!("customer{zone}-example.mail.protection.example.net."),
    }
}

fn policy(i: usize) -> String {
    format!("{}{i}.example.{}.rpz.example.net.", ["ads", "malware", "track"][i % 3], ["com", "org"][i % 2])
}

/// The delegations of five country codes: the zone, and three of its name servers.
fn country(i: usize) -> String {
    let below = ["", "a.nic.", "ns2.nic.", "f.ext.nic."][i % 4];
    format!("{below}{}.", ["de", "fr", "jp", "nl", "uk"][i / 4])
}

const WORDS: [&str; 11] =
    ["alpha", "bravo", "charlie", "delta", "echo", "foxtrot", "golf", "hotel", "india", "juliett", "kilo"];

fn next(i: usize) -> String {
    format!("{}.example.org.", WORDS[(i + 1) / 2])
}

/// A hash of 20 random octets in base 32 with extended hex (RFC 5155, section 3.3), before the zone.
fn hashed(i: usize) -> String {
    let mut random = Random(i as u64);
    let digits = "0123456789abcdefghijklmnopqrstuv".as_bytes();
    (0..32).map(|_| digits[random.below(32)] as char).collect::<String>() + ".example.com."
}

const PUNYCODE: [&str; 5] = ["xn--bcher-kva", "xn--mnchen-3ya", "xn--80aswg", "xn--wgv71a119e", "xn--hxajbheg2az3al"];

fn idn(i: usize) -> String {
    let (below, top) = (["", "www."][i % 2], ["xn--p1ai", "xn--fiqs8s"][i / 2 % 2]);
    format!("{below}{}.{top}.", PUNYCODE[i / 4])
}

/// A name for an address of the documentation's network 2001:db8::/32 (RFC 3596, section 2.5).
fn reverse_ipv6(i: usize) -> String {
    let digits = format!("20010db8000000010000000000{:06x}", 0x1234 + 77 * i);
    digits.chars().rev().map(|digit| format!("{digit}.")).collect::<String>() + "ip6.arpa."
}

fn differs_last(i: usize) -> String {
    format!("{}.{}.{}.{}{i:04}.", "a".repeat(63), "b".repeat(63), "c".repeat(63), "d".repeat(57))
}
