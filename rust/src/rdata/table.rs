// made by tools/types from crates/dnw_data/specs/Table.antt; change it there
//! The table of the data of all types, from which the borrowed and the owned form are made.

/// Passes the structs for data with several fields to a macro. Each field has its type in the borrowed form and in the
/// owned one, and its kind, by which it is written and shown.
macro_rules! each_struct {
    ($then:ident) => {
        $then! {
            /// The start of a zone of authority (RFC 1035, section 3.3.13).
            SOA<'a> {
                /// The primary name server of the zone.
                mname: NameRef<'a>, Name = name,
                /// The mailbox of the person responsible for the zone.
                rname: NameRef<'a>, Name = name,
                /// The version of the zone, a [`SerialNumber`](crate::SerialNumber).
                serial: u32, u32 = u32,
                /// The seconds until the zone should be refreshed.
                refresh: u32, u32 = u32,
                /// The seconds until a failed refresh should be tried again.
                retry: u32, u32 = u32,
                /// The seconds after which the zone is no longer authoritative.
                expire: u32, u32 = u32,
                /// The TTL of negative answers, in seconds (RFC 2308, section 4).
                minimum: u32, u32 = u32,
            }

            /// The services of a host by their ports, which is obsolete (RFC 1035, section 3.4.2).
            WKS<'a> {
                /// The address of the host.
                address: Ipv4Addr, Ipv4Addr = ipv4,
                /// The protocol.
                protocol: u8, u8 = u8,
                /// A bit for each port.
                bitmap: &'a [u8], Vec<u8> = rest,
            }

            /// The CPU and the operating system of a host (RFC 1035, section 3.3.2).
            HINFO<'a> {
                /// The CPU.
                cpu: &'a [u8], Vec<u8> = string,
                /// The operating system.
                os: &'a [u8], Vec<u8> = string,
            }

            /// Two mailboxes (RFC 1035, section 3.3.7), or a mailbox and the owner of a TXT record (RFC 1183, section
            /// 2.2).
            Mailboxes<'a> {
                /// The first mailbox.
                mailbox: NameRef<'a>, Name = name,
                /// The second mailbox, or the owner of a TXT record.
                other: NameRef<'a>, Name = name,
            }

            /// A mail server for a domain (RFC 1035, section 3.3.9). Also the data of AFSDB, RT, KX and LP.
            MX<'a> {
                /// Lower values are preferred.
                preference: u16, u16 = u16,
                /// The host.
                exchange: NameRef<'a>, Name = name,
            }

            /// A signature of records (RFC 4034, section 3.1). Also the data of SIG.
            RRSIG<'a> {
                /// The type of the records.
                type_covered: RecordType, RecordType = record_type,
                /// The algorithm.
                algorithm: u8, u8 = u8,
                /// The number of labels of the owner, without a `*` at the start.
                labels: u8, u8 = u8,
                /// The TTL of the records in their zone.
                original_ttl: u32, u32 = u32,
                /// When the signature expires, in seconds since 1970, as a [`SerialNumber`](crate::SerialNumber).
                expiration: u32, u32 = u32,
                /// When the signature becomes valid, in the same form.
                inception: u32, u32 = u32,
                /// The tag of the key.
                key_tag: u16, u16 = u16,
                /// The zone of the key.
                signer: NameRef<'a>, Name = name,
                /// The signature.
                signature: &'a [u8], Vec<u8> = rest,
            }

            /// A key of a zone (RFC 4034, section 2.1). Also the data of KEY, RKEY and CDNSKEY.
            DNSKEY<'a> {
                /// 256 for a zone key, 257 for a zone key that is also a secure entry point.
                flags: u16, u16 = u16,
                /// Always 3.
                protocol: u8, u8 = u8,
                /// The algorithm.
                algorithm: u8, u8 = u8,
                /// The key.
                key: &'a [u8], Vec<u8> = rest,
            }

            /// A mapping between mail addresses and those of X.400 (RFC 2163, section 4).
            PX<'a> {
                /// Lower values are preferred.
                preference: u16, u16 = u16,
                /// The part that is a domain name.
                map822: NameRef<'a>, Name = name,
                /// The part that is from an address of X.400.
                mapx400: NameRef<'a>, Name = name,
            }

            /// Where a host is, in degrees and metres (RFC 1712, section 3).
            GPOS<'a> {
                /// The longitude.
                longitude: &'a [u8], Vec<u8> = string,
                /// The latitude.
                latitude: &'a [u8], Vec<u8> = string,
                /// The altitude.
                altitude: &'a [u8], Vec<u8> = string,
            }

            /// The next name in a zone and the types at this name, in an old form (RFC 2535, section 5.2).
            NXT<'a> {
                /// The next name.
                next: NameRef<'a>, Name = name,
                /// A bit for each type below 128.
                bitmap: &'a [u8], Vec<u8> = rest,
            }

            /// The host and the port of a service (RFC 2782).
            SRV<'a> {
                /// Lower values are tried first.
                priority: u16, u16 = u16,
                /// How often the host is chosen among those of the same priority.
                weight: u16, u16 = u16,
                /// The port.
                port: u16, u16 = u16,
                /// The host.
                target: NameRef<'a>, Name = name,
            }

            /// A rule that rewrites a name (RFC 3403, section 4.1).
            NAPTR<'a> {
                /// The order in which rules are applied.
                order: u16, u16 = u16,
                /// The preference among rules of the same order.
                preference: u16, u16 = u16,
                /// What to do after the rule.
                flags: &'a [u8], Vec<u8> = string,
                /// The service.
                service: &'a [u8], Vec<u8> = string,
                /// A regular expression that makes the next name.
                regexp: &'a [u8], Vec<u8> = string,
                /// The next name.
                replacement: NameRef<'a>, Name = name,
            }

            /// A certificate (RFC 4398, section 2).
            CERT<'a> {
                /// The type of the certificate.
                certificate_type: u16, u16 = u16,
                /// The tag of its key.
                key_tag: u16, u16 = u16,
                /// The algorithm of its key.
                algorithm: u8, u8 = u8,
                /// The certificate.
                certificate: &'a [u8], Vec<u8> = rest,
            }

            /// The digest of a key of a child zone (RFC 4034, section 5.1). Also the data of CDS, TA and DLV.
            DS<'a> {
                /// The tag of the key.
                key_tag: u16, u16 = u16,
                /// The algorithm of the key.
                algorithm: u8, u8 = u8,
                /// The digest algorithm.
                digest_type: u8, u8 = u8,
                /// The digest.
                digest: &'a [u8], Vec<u8> = rest,
            }

            /// The fingerprint of an SSH key (RFC 4255, section 3.1).
            SSHFP<'a> {
                /// The algorithm of the key.
                algorithm: u8, u8 = u8,
                /// The fingerprint algorithm.
                fp_type: u8, u8 = u8,
                /// The fingerprint.
                fingerprint: &'a [u8], Vec<u8> = rest,
            }

            /// A gateway and its key for IPsec (RFC 4025, section 2.1).
            IPSECKEY<'a> {
                /// Lower values are preferred.
                precedence: u8, u8 = u8,
                /// The type of the gateway, the algorithm of the key, and the gateway.
                gateway: &'a [u8], Vec<u8> = rest,
                /// The key.
                public_key: &'a [u8], Vec<u8> = rest,
            }

            /// The next name in a zone, and the types at this name (RFC 4034, section 4.1).
            NSEC<'a> {
                /// The next name.
                next: NameRef<'a>, Name = name,
                /// The types of the owner.
                types: TypeSet, TypeSet = types,
            }

            /// The next hash in a zone, and the types at this name (RFC 5155, section 3.2).
            NSEC3<'a> {
                /// The hash algorithm.
                algorithm: u8, u8 = u8,
                /// 1 for opt-out: unsigned delegations may be between the hashes.
                flags: u8, u8 = u8,
                /// The number of additional iterations of the hash.
                iterations: u16, u16 = u16,
                /// The salt, which is appended before each iteration.
                salt: &'a [u8], Vec<u8> = string,
                /// The next hash.
                next: &'a [u8], Vec<u8> = string,
                /// The types of the owner.
                types: TypeSet, TypeSet = types,
            }

            /// How the names of a zone are hashed (RFC 5155, section 4.2).
            NSEC3PARAM<'a> {
                /// The hash algorithm.
                algorithm: u8, u8 = u8,
                /// Always 0.
                flags: u8, u8 = u8,
                /// The number of additional iterations of the hash.
                iterations: u16, u16 = u16,
                /// The salt, which is appended before each iteration.
                salt: &'a [u8], Vec<u8> = string,
            }

            /// A certificate of a TLS server (RFC 6698, section 2.1). Also the data of SMIMEA.
            TLSA<'a> {
                /// The certificate usage: what has to match.
                usage: u8, u8 = u8,
                /// The selector: the whole certificate, or its public key.
                selector: u8, u8 = u8,
                /// The matching type: the selected content itself, or a hash of it.
                mtype: u8, u8 = u8,
                /// The content or its hash.
                cert: &'a [u8], Vec<u8> = rest,
            }

            /// The identity of a host, and its rendezvous servers (RFC 8005, section 5).
            HIP<'a> {
                /// The length of the tag, the algorithm of the key, its length, the tag and the key.
                identity: &'a [u8], Vec<u8> = rest,
                /// The servers.
                servers: WholeNames<'a>, WholeNames = whole_names,
            }

            /// The links of a chain of trust anchors (the template TALINK of IANA's registry).
            TALINK<'a> {
                /// The name before.
                previous: NameRef<'a>, Name = name,
                /// The name after.
                next: NameRef<'a>, Name = name,
            }

            /// The types that a parent zone may copy from its child (RFC 7477, section 2.1.1).
            CSYNC {
                /// The lowest serial number of the child at which the parent may copy.
                serial: u32, u32 = u32,
                /// Whether the parent may copy immediately (1), and whether the serial number is used (2).
                flags: u16, u16 = u16,
                /// The types to copy.
                types: TypeSet, TypeSet = types,
            }

            /// The digest of a zone (RFC 8976, section 2.2).
            ZONEMD<'a> {
                /// The serial number of the zone.
                serial: u32, u32 = u32,
                /// How the records are collated.
                scheme: u8, u8 = u8,
                /// The hash algorithm.
                hash_algorithm: u8, u8 = u8,
                /// The digest.
                digest: &'a [u8], Vec<u8> = rest,
            }

            /// How to reach a service (RFC 9460, section 2.2). Also the data of HTTPS.
            SVCB<'a> {
                /// 0 for an alias. Of others, lower values are preferred.
                priority: u16, u16 = u16,
                /// The host, or the root for the owner itself.
                target: NameRef<'a>, Name = name,
                /// The parameters, each a key and its value, in ascending order of the keys.
                params: Pairs<'a>, Pairs = params,
            }

            /// Where to send notifications about a delegation (RFC 9859, section 2.1).
            DSYNC<'a> {
                /// The type that a notification is about.
                notified_type: RecordType, RecordType = record_type,
                /// How to notify.
                scheme: u8, u8 = u8,
                /// The port.
                port: u16, u16 = u16,
                /// The host.
                target: NameRef<'a>, Name = name,
            }

            /// The identifier of a node (RFC 6742, section 2.1.1).
            NID {
                /// Lower values are preferred.
                preference: u16, u16 = u16,
                /// The identifier.
                node_id: u64, u64 = u64,
            }

            /// A locator of 32 bits (RFC 6742, section 2.2.1).
            L32 {
                /// Lower values are preferred.
                preference: u16, u16 = u16,
                /// The locator.
                locator: Ipv4Addr, Ipv4Addr = ipv4,
            }

            /// A locator of 64 bits (RFC 6742, section 2.3.1).
            L64 {
                /// Lower values are preferred.
                preference: u16, u16 = u16,
                /// The locator.
                locator: u64, u64 = u64,
            }

            /// The making of a key for TSIG (RFC 2930, section 2).
            TKEY<'a> {
                /// The algorithm.
                algorithm: NameRef<'a>, Name = name,
                /// When the key begins to be valid, in seconds since 1970, a [`SerialNumber`](crate::SerialNumber).
                inception: u32, u32 = u32,
                /// When it ends.
                expiration: u32, u32 = u32,
                /// How the key is made.
                mode: u16, u16 = u16,
                /// An error, or 0.
                error: u16, u16 = u16,
                /// The key, or what it is made from.
                key: &'a [u8], Vec<u8> = long,
                /// Other data.
                other: &'a [u8], Vec<u8> = long,
            }

            /// The signature of a message (RFC 8945, section 4.2).
            TSIG<'a> {
                /// The algorithm.
                algorithm: NameRef<'a>, Name = name,
                /// The time, in seconds since 1970.
                time_signed: u64, u64 = u48,
                /// The seconds that clocks may differ.
                fudge: u16, u16 = u16,
                /// The signature.
                mac: &'a [u8], Vec<u8> = long,
                /// The identifier of the message that was signed.
                original_id: u16, u16 = u16,
                /// An error, or 0.
                error: u16, u16 = u16,
                /// Other data.
                other: &'a [u8], Vec<u8> = long,
            }

            /// The URI of a service (RFC 7553, section 4.2).
            URI<'a> {
                /// Lower values are tried first.
                priority: u16, u16 = u16,
                /// How often the URI is chosen among those of the same priority.
                weight: u16, u16 = u16,
                /// The URI.
                target: &'a [u8], Vec<u8> = rest,
            }

            /// The authorities that may issue certificates for a domain (RFC 8659, section 4.1).
            CAA<'a> {
                /// 128 if an authority that does not know the tag must not issue.
                flags: u8, u8 = u8,
                /// The tag of the property.
                tag: &'a [u8], Vec<u8> = string,
                /// The value of the property.
                value: &'a [u8], Vec<u8> = rest,
            }

            /// A digital object (the template DOA of IANA's registry).
            DOA<'a> {
                /// The number of the enterprise.
                enterprise: u32, u32 = u32,
                /// The type of the object.
                object_type: u32, u32 = u32,
                /// Where the object is.
                location: u8, u8 = u8,
                /// Its media type.
                media_type: &'a [u8], Vec<u8> = string,
                /// The object, or where it is.
                data: &'a [u8], Vec<u8> = rest,
            }

            /// A relay for multicast (RFC 8777, section 4.2).
            AMTRELAY<'a> {
                /// Lower values are preferred.
                precedence: u8, u8 = u8,
                /// A bit and 7 bits of the type of the relay, and the relay.
                relay: &'a [u8], Vec<u8> = rest,
            }
        }
    };
}

/// Passes the variants of the data to a macro: those with one value of a kind, and those with a struct, each with the
/// code of its type.
macro_rules! each_variant {
    ($then:ident) => {
        $then! {
            one {
                /// An IPv4 address (RFC 1035, section 3.4.1).
                A = 1: Ipv4Addr, Ipv4Addr = ipv4,
                /// A name server of a zone (RFC 1035, section 3.3.11).
                NS = 2: NameRef<'a>, Name = name,
                /// A host that takes mail, which is obsolete (RFC 1035, section 3.3.4).
                MD = 3: NameRef<'a>, Name = name,
                /// A host that forwards mail, which is obsolete (RFC 1035, section 3.3.5).
                MF = 4: NameRef<'a>, Name = name,
                /// The canonical name of an alias (RFC 1035, section 3.3.1).
                CNAME = 5: NameRef<'a>, Name = name,
                /// A host of a mailbox (RFC 1035, section 3.3.3).
                MB = 7: NameRef<'a>, Name = name,
                /// A member of a group of mailboxes (RFC 1035, section 3.3.6).
                MG = 8: NameRef<'a>, Name = name,
                /// The new name of a mailbox (RFC 1035, section 3.3.8).
                MR = 9: NameRef<'a>, Name = name,
                /// A pointer to another name (RFC 1035, section 3.3.12).
                PTR = 12: NameRef<'a>, Name = name,
                /// Texts (RFC 1035, section 3.3.14).
                TXT = 16: Texts<'a>, Texts = texts,
                /// An address of X.25 (RFC 1183, section 3.1).
                X25 = 19: &'a [u8], Vec<u8> = string,
                /// An address of ISDN, and a subaddress if there is one (RFC 1183, section 3.2).
                ISDN = 20: Texts<'a>, Texts = texts,
                /// An address of OSI (RFC 1706, section 5).
                NSAP = 22: &'a [u8], Vec<u8> = rest,
                /// The name of an address of OSI (RFC 1706, section 6).
                NSAPPTR = 23: NameRef<'a>, Name = name,
                /// An IPv6 address (RFC 3596, section 2.2).
                AAAA = 28: Ipv6Addr, Ipv6Addr = ipv6,
                /// A location: 16 octets if the first, the version, is 0 (RFC 1876, section 2).
                LOC = 29: &'a [u8], Vec<u8> = rest,
                /// The name that a subtree is an alias of (RFC 6672, section 2.1).
                DNAME = 39: NameRef<'a>, Name = name,
                /// Address prefixes (RFC 3123, section 4).
                APL = 42: Prefixes<'a>, Prefixes = prefixes,
                /// Which client of DHCP owns a name (RFC 4701, section 3.1).
                DHCID = 49: &'a [u8], Vec<u8> = rest,
                /// The state of a zone (the template NINFO of IANA's registry).
                NINFO = 56: Texts<'a>, Texts = texts,
                /// The identity of a host, in a hierarchy (RFC 9886, section 5.1).
                HHIT = 67: &'a [u8], Vec<u8> = rest,
                /// The identity of an unmanned aircraft (RFC 9886, section 5.2).
                BRID = 68: &'a [u8], Vec<u8> = rest,
                /// SPF texts (RFC 4408, section 3.1.1), now in TXT records (RFC 7208, section 3.1).
                SPF = 99: Texts<'a>, Texts = texts,
                /// An EUI-48 address (RFC 7043, section 3.1).
                EUI48 = 108: [u8; 6], [u8; 6] = eui48,
                /// An EUI-64 address (RFC 7043, section 4.1).
                EUI64 = 109: [u8; 8], [u8; 8] = eui64,
                /// What is known of an application (the template AVC of IANA's registry).
                AVC = 258: Texts<'a>, Texts = texts,
                /// What a resolver says of itself (RFC 9606, section 4).
                RESINFO = 261: Texts<'a>, Texts = texts,
                /// A public address of a wallet (the template WALLET of IANA's registry).
                WALLET = 262: Texts<'a>, Texts = texts,
                /// The convergence layer adapters of a node of the Bundle Protocol (the template CLA of IANA's
                /// registry).
                CLA = 263: Texts<'a>, Texts = texts,
                /// A node of the Bundle Protocol (the template IPN of IANA's registry).
                IPN = 264: u64, u64 = u64,
            }
            several {
                /// The start of a zone of authority (RFC 1035, section 3.3.13).
                SOA = 6: SOA<'a>,
                /// The services of a host by their ports, which is obsolete (RFC 1035, section 3.4.2).
                WKS = 11: WKS<'a>,
                /// The CPU and the operating system of a host (RFC 1035, section 3.3.2).
                HINFO = 13: HINFO<'a>,
                /// A mailbox for requests and one for errors (RFC 1035, section 3.3.7).
                MINFO = 14: Mailboxes<'a>,
                /// A mail server for a domain (RFC 1035, section 3.3.9).
                MX = 15: MX<'a>,
                /// The person responsible for a name, and the owner of a TXT record (RFC 1183, section 2.2).
                RP = 17: Mailboxes<'a>,
                /// A server of an AFS or DCE cell (RFC 1183, section 1).
                AFSDB = 18: MX<'a>,
                /// A host that routes to another one (RFC 1183, section 3.3).
                RT = 21: MX<'a>,
                /// A signature of records (RFC 2535, section 4.1) or, if it covers the type 0, of a message (RFC 2931).
                SIG = 24: RRSIG<'a>,
                /// A key of a host (RFC 2535, section 3.1).
                KEY = 25: DNSKEY<'a>,
                /// A mapping between mail addresses and those of X.400 (RFC 2163, section 4).
                PX = 26: PX<'a>,
                /// Where a host is, in degrees and metres (RFC 1712, section 3).
                GPOS = 27: GPOS<'a>,
                /// The next name in a zone and the types at this name, in an old form (RFC 2535, section 5.2).
                NXT = 30: NXT<'a>,
                /// The host and the port of a service (RFC 2782).
                SRV = 33: SRV<'a>,
                /// A rule that rewrites a name (RFC 3403, section 4.1).
                NAPTR = 35: NAPTR<'a>,
                /// A host that exchanges keys (RFC 2230, section 3).
                KX = 36: MX<'a>,
                /// A certificate (RFC 4398, section 2).
                CERT = 37: CERT<'a>,
                /// The digest of a key of a child zone (RFC 4034, section 5.1).
                DS = 43: DS<'a>,
                /// The fingerprint of an SSH key (RFC 4255, section 3.1).
                SSHFP = 44: SSHFP<'a>,
                /// A gateway and its key for IPsec (RFC 4025, section 2.1).
                IPSECKEY = 45: IPSECKEY<'a>,
                /// A signature of records (RFC 4034, section 3.1).
                RRSIG = 46: RRSIG<'a>,
                /// The next name in a zone, and the types at this name (RFC 4034, section 4.1).
                NSEC = 47: NSEC<'a>,
                /// A key of a zone (RFC 4034, section 2.1).
                DNSKEY = 48: DNSKEY<'a>,
                /// The next hash in a zone, and the types at this name (RFC 5155, section 3.2).
                NSEC3 = 50: NSEC3<'a>,
                /// How the names of a zone are hashed (RFC 5155, section 4.2).
                NSEC3PARAM = 51: NSEC3PARAM<'a>,
                /// A certificate of a TLS server (RFC 6698, section 2.1).
                TLSA = 52: TLSA<'a>,
                /// A certificate for mail (RFC 8162, section 2).
                SMIMEA = 53: TLSA<'a>,
                /// The identity of a host, and its rendezvous servers (RFC 8005, section 5).
                HIP = 55: HIP<'a>,
                /// A key for the encryption of NAPTR records (the template RKEY of IANA's registry).
                RKEY = 57: DNSKEY<'a>,
                /// The links of a chain of trust anchors (the template TALINK of IANA's registry).
                TALINK = 58: TALINK<'a>,
                /// The child's copy of a DS (RFC 7344, section 3.1).
                CDS = 59: DS<'a>,
                /// The child's copy of a DNSKEY (RFC 7344, section 3.2).
                CDNSKEY = 60: DNSKEY<'a>,
                /// The types that a parent zone may copy from its child (RFC 7477, section 2.1.1).
                CSYNC = 62: CSYNC,
                /// The digest of a zone (RFC 8976, section 2.2).
                ZONEMD = 63: ZONEMD<'a>,
                /// How to reach a service (RFC 9460, section 2.2).
                SVCB = 64: SVCB<'a>,
                /// How to reach a service over HTTPS (RFC 9460, section 9).
                HTTPS = 65: SVCB<'a>,
                /// Where to send notifications about a delegation (RFC 9859, section 2.1).
                DSYNC = 66: DSYNC<'a>,
                /// The identifier of a node (RFC 6742, section 2.1.1).
                NID = 104: NID,
                /// A locator of 32 bits (RFC 6742, section 2.2.1).
                L32 = 105: L32,
                /// A locator of 64 bits (RFC 6742, section 2.3.1).
                L64 = 106: L64,
                /// The name of locators (RFC 6742, section 2.4.1).
                LP = 107: MX<'a>,
                /// The making of a key for TSIG (RFC 2930, section 2).
                TKEY = 249: TKEY<'a>,
                /// The signature of a message (RFC 8945, section 4.2).
                TSIG = 250: TSIG<'a>,
                /// The URI of a service (RFC 7553, section 4.2).
                URI = 256: URI<'a>,
                /// The authorities that may issue certificates for a domain (RFC 8659, section 4.1).
                CAA = 257: CAA<'a>,
                /// A digital object (the template DOA of IANA's registry).
                DOA = 259: DOA<'a>,
                /// A relay for multicast (RFC 8777, section 4.2).
                AMTRELAY = 260: AMTRELAY<'a>,
                /// The digest of a key that is trusted (the reference of IANA's registry, as DS).
                TA = 32768: DS<'a>,
                /// The digest of a key of a zone that is looked up aside (RFC 4431, section 2).
                DLV = 32769: DS<'a>,
            }
        }
    };
}

/// Passes the structs that are the data of the type of their name to a macro.
macro_rules! each_own_struct {
    ($then:ident) => {
        $then! {
            SOA<'a>, WKS<'a>, HINFO<'a>, MX<'a>, RRSIG<'a>, DNSKEY<'a>, PX<'a>, GPOS<'a>, NXT<'a>, SRV<'a>, NAPTR<'a>, CERT<'a>,
            DS<'a>, SSHFP<'a>, IPSECKEY<'a>, NSEC<'a>, NSEC3<'a>, NSEC3PARAM<'a>, TLSA<'a>, HIP<'a>, TALINK<'a>, CSYNC,
            ZONEMD<'a>, SVCB<'a>, DSYNC<'a>, NID, L32, L64, TKEY<'a>, TSIG<'a>, URI<'a>, CAA<'a>, DOA<'a>, AMTRELAY<'a>,
        }
    };
}

pub(crate) use {each_own_struct, each_struct, each_variant};
