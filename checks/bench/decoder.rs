// A plain, idiomatic full decoder into owned structures with the RFC 7606 checks of the standard attributes: no unsafe, no crates, no proofs.
// baseline.rs and limits.rs include it.
use std::net::{IpAddr, Ipv4Addr, Ipv6Addr};
use std::time::Instant;

#[derive(Debug, Clone, Copy, PartialEq, Eq)]
pub enum Action {
    Discard,
    Withdraw,
    Reset(u8, u8),
}

#[derive(Debug)]
pub struct Fault {
    pub code: u8,
    pub what: &'static str,
    pub action: Action,
}

#[derive(Debug, Clone, Copy)]
pub struct Prefix {
    pub addr: IpAddr,
    pub len: u8,
}

#[derive(Debug)]
pub struct Segment {
    pub kind: u8,
    pub asns: Vec<u32>,
}

#[derive(Debug)]
pub struct MpReach {
    pub afi: u16,
    pub safi: u8,
    pub next_hops: Vec<IpAddr>,
    pub nlri: Vec<Prefix>,
}

#[derive(Debug)]
pub struct MpUnreach {
    pub afi: u16,
    pub safi: u8,
    pub nlri: Vec<Prefix>,
}

#[derive(Debug)]
pub struct RawAttr {
    pub flags: u8,
    pub code: u8,
    pub value: Vec<u8>,
}

#[derive(Debug, Default)]
pub struct Update {
    pub withdrawn: Vec<Prefix>,
    pub nlri: Vec<Prefix>,
    pub origin: Option<u8>,
    pub as_path: Option<Vec<Segment>>,
    pub next_hop: Option<Ipv4Addr>,
    pub med: Option<u32>,
    pub local_pref: Option<u32>,
    pub atomic: bool,
    pub aggregator: Option<(u32, Ipv4Addr)>,
    pub communities: Vec<u32>,
    pub originator: Option<Ipv4Addr>,
    pub cluster_list: Vec<Ipv4Addr>,
    pub mp_reach: Option<MpReach>,
    pub mp_unreach: Option<MpUnreach>,
    pub ext_communities: Vec<[u8; 8]>,
    pub as4_path: Option<Vec<Segment>>,
    pub as4_aggregator: Option<(u32, Ipv4Addr)>,
    pub large_communities: Vec<(u32, u32, u32)>,
    pub unknown: Vec<RawAttr>,
    pub faults: Vec<Fault>,
}

#[derive(Debug)]
pub enum Capability {
    Multiprotocol { afi: u16, safi: u8 },
    As4(u32),
    Other { code: u8, value: Vec<u8> },
}

#[derive(Debug)]
pub struct Open {
    pub version: u8,
    pub my_as: u16,
    pub hold: u16,
    pub id: Ipv4Addr,
    pub caps: Vec<Capability>,
}

#[derive(Debug)]
pub enum Message {
    Open(Open),
    Update(Update),
    Notification { code: u8, subcode: u8, data: Vec<u8> },
    Keepalive,
    RouteRefresh { afi: u16, subtype: u8, safi: u8 },
}

#[derive(Debug)]
pub struct Error(pub u8, pub u8);

fn be16(b: &[u8]) -> u16 {
    u16::from_be_bytes([b[0], b[1]])
}

fn be32(b: &[u8]) -> u32 {
    u32::from_be_bytes([b[0], b[1], b[2], b[3]])
}

fn ip4(b: &[u8]) -> Ipv4Addr {
    Ipv4Addr::new(b[0], b[1], b[2], b[3])
}

fn ip6(b: &[u8]) -> Ipv6Addr {
    let mut a = [0u8; 16];
    a.copy_from_slice(&b[..16]);
    Ipv6Addr::from(a)
}

fn prefixes(mut b: &[u8], v6: bool) -> Option<Vec<Prefix>> {
    let max = if v6 { 128 } else { 32 };
    let mut out = Vec::new();
    while let Some((&len, rest)) = b.split_first() {
        let n = (len as usize + 7) / 8;
        if len > max || n > rest.len() {
            return None;
        }
        let addr = if v6 {
            let mut a = [0u8; 16];
            a[..n].copy_from_slice(&rest[..n]);
            if len % 8 != 0 {
                a[n - 1] &= 0xFFu8 << (8 - len % 8);
            }
            IpAddr::V6(Ipv6Addr::from(a))
        } else {
            let mut a = [0u8; 4];
            a[..n].copy_from_slice(&rest[..n]);
            if len % 8 != 0 {
                a[n - 1] &= 0xFFu8 << (8 - len % 8);
            }
            IpAddr::V4(Ipv4Addr::from(a))
        };
        out.push(Prefix { addr, len });
        b = &rest[n..];
    }
    Some(out)
}

fn path(mut v: &[u8], width: usize) -> Option<Vec<Segment>> {
    let mut out = Vec::new();
    while !v.is_empty() {
        if v.len() < 2 {
            return None;
        }
        let (kind, n) = (v[0], v[1] as usize);
        if !(1..=4).contains(&kind) || n == 0 || v.len() < 2 + n * width {
            return None;
        }
        let body = &v[2..2 + n * width];
        let asns = if width == 4 {
            body.chunks_exact(4).map(be32).collect()
        } else {
            body.chunks_exact(2).map(|c| be16(c) as u32).collect()
        };
        out.push(Segment { kind, asns });
        v = &v[2 + n * width..];
    }
    Some(out)
}

pub struct Context {
    pub as4: bool,
    pub internal: bool,
}

fn update(m: &[u8], cx: &Context) -> Result<Update, Error> {
    let bad = Error(3, 1);
    if m.len() < 4 {
        return Err(bad);
    }
    let wl = be16(m) as usize;
    if m.len() < 4 + wl {
        return Err(bad);
    }
    let al = be16(&m[2 + wl..]) as usize;
    if m.len() < 4 + wl + al {
        return Err(bad);
    }
    let mut u = Update { withdrawn: prefixes(&m[2..2 + wl], false).ok_or(Error(3, 10))?, ..Default::default() };
    u.nlri = prefixes(&m[4 + wl + al..], false).ok_or(Error(3, 10))?;
    let mut a = &m[4 + wl..4 + wl + al];
    let mut seen = [false; 256];
    while !a.is_empty() {
        let ext = a[0] & 0x10 != 0;
        let h = if ext { 4 } else { 3 };
        if a.len() < h {
            u.faults.push(Fault { code: 0, what: "attribute header overruns", action: Action::Withdraw });
            break;
        }
        let (flags, code) = (a[0], a[1]);
        let vl = if ext { be16(&a[2..]) as usize } else { a[2] as usize };
        if a.len() < h + vl {
            u.faults.push(Fault { code, what: "attribute length overruns", action: Action::Withdraw });
            break;
        }
        let v = &a[h..h + vl];
        a = &a[h + vl..];
        if seen[code as usize] {
            if code == 14 || code == 15 {
                return Err(bad);
            }
            u.faults.push(Fault { code, what: "repeated", action: Action::Discard });
            continue;
        }
        seen[code as usize] = true;
        let mut fault = |what, action| u.faults.push(Fault { code, what, action });
        let want = match code {
            1 | 2 | 3 | 5 | 6 => Some(0x40),
            4 | 9 | 10 | 14 | 15 => Some(0x80),
            7 | 8 | 16 | 17 | 18 | 32 => Some(0xC0),
            _ => None,
        };
        match want {
            Some(w) if flags & 0xC0 != w => {
                fault("attribute flags", Action::Withdraw);
                continue;
            }
            None if flags & 0x80 == 0 => return Err(Error(3, 2)),
            _ => {}
        }
        match code {
            1 => match v {
                [o @ 0..=2] => u.origin = Some(*o),
                _ => fault("ORIGIN", Action::Withdraw),
            },
            2 => match path(v, if cx.as4 { 4 } else { 2 }) {
                Some(p) => {
                    if p.iter().any(|s| s.kind > 2) {
                        fault("AS_CONFED segment", Action::Withdraw);
                    }
                    u.as_path = Some(p)
                }
                None => fault("AS_PATH", Action::Withdraw),
            },
            3 => match v.len() {
                4 => u.next_hop = Some(ip4(v)),
                _ => fault("NEXT_HOP length", Action::Withdraw),
            },
            4 => match v.len() {
                4 => u.med = Some(be32(v)),
                _ => fault("MULTI_EXIT_DISC length", Action::Withdraw),
            },
            5 => {
                if !cx.internal {
                    fault("LOCAL_PREF from external peer", Action::Discard)
                } else if v.len() != 4 {
                    fault("LOCAL_PREF length", Action::Withdraw)
                } else {
                    u.local_pref = Some(be32(v))
                }
            }
            6 => match v.len() {
                0 => u.atomic = true,
                _ => fault("ATOMIC_AGGREGATE length", Action::Discard),
            },
            7 => match (v.len(), cx.as4) {
                (8, true) => u.aggregator = Some((be32(v), ip4(&v[4..]))),
                (6, false) => u.aggregator = Some((be16(v) as u32, ip4(&v[2..]))),
                _ => fault("AGGREGATOR length", Action::Discard),
            },
            8 => {
                if v.is_empty() || v.len() % 4 != 0 {
                    fault("COMMUNITIES length", Action::Withdraw)
                } else {
                    u.communities = v.chunks_exact(4).map(be32).collect()
                }
            }
            9 => {
                if !cx.internal {
                    fault("ORIGINATOR_ID from external peer", Action::Discard)
                } else if v.len() != 4 {
                    fault("ORIGINATOR_ID length", Action::Withdraw)
                } else {
                    u.originator = Some(ip4(v))
                }
            }
            10 => {
                if !cx.internal {
                    fault("CLUSTER_LIST from external peer", Action::Discard)
                } else if v.is_empty() || v.len() % 4 != 0 {
                    fault("CLUSTER_LIST length", Action::Withdraw)
                } else {
                    u.cluster_list = v.chunks_exact(4).map(ip4).collect()
                }
            }
            14 => {
                if v.len() < 5 {
                    return Err(Error(3, 9));
                }
                let (afi, safi, nl) = (be16(v), v[2], v[3] as usize);
                if v.len() < 5 + nl {
                    return Err(Error(3, 9));
                }
                let nh = &v[4..4 + nl];
                let next_hops = match (afi, nl) {
                    (1, 4) => vec![IpAddr::V4(ip4(nh))],
                    (2, 16) => vec![IpAddr::V6(ip6(nh))],
                    (2, 32) => vec![IpAddr::V6(ip6(nh)), IpAddr::V6(ip6(&nh[16..]))],
                    (1, 16) | (1, 32) => {
                        fault("IPv4 NLRI with IPv6 next hop (RFC 8950)", Action::Reset(3, 9));
                        vec![IpAddr::V6(ip6(nh))]
                    }
                    _ => return Err(Error(3, 9)),
                };
                if (afi != 1 && afi != 2) || safi != 1 {
                    fault("AFI/SAFI not negotiated", Action::Discard);
                    continue;
                }
                let nlri = prefixes(&v[5 + nl..], afi == 2).ok_or(Error(3, 9))?;
                u.mp_reach = Some(MpReach { afi, safi, next_hops, nlri });
            }
            15 => {
                if v.len() < 3 {
                    return Err(Error(3, 9));
                }
                let (afi, safi) = (be16(v), v[2]);
                if (afi != 1 && afi != 2) || safi != 1 {
                    fault("AFI/SAFI not negotiated", Action::Discard);
                    continue;
                }
                let nlri = prefixes(&v[3..], afi == 2).ok_or(Error(3, 9))?;
                u.mp_unreach = Some(MpUnreach { afi, safi, nlri });
            }
            16 => {
                if v.is_empty() || v.len() % 8 != 0 {
                    fault("EXTENDED COMMUNITIES length", Action::Withdraw)
                } else {
                    u.ext_communities = v.chunks_exact(8).map(|c| c.try_into().unwrap()).collect()
                }
            }
            17 => {
                if cx.as4 {
                    fault("AS4_PATH on a 4-octet session", Action::Discard)
                } else {
                    match path(v, 4) {
                        Some(p) => u.as4_path = Some(p),
                        None => fault("AS4_PATH", Action::Discard),
                    }
                }
            }
            18 => {
                if cx.as4 {
                    fault("AS4_AGGREGATOR on a 4-octet session", Action::Discard)
                } else if v.len() != 8 {
                    fault("AS4_AGGREGATOR length", Action::Discard)
                } else {
                    u.as4_aggregator = Some((be32(v), ip4(&v[4..])))
                }
            }
            32 => {
                if v.is_empty() || v.len() % 12 != 0 {
                    fault("LARGE_COMMUNITY length", Action::Withdraw)
                } else {
                    u.large_communities = v.chunks_exact(12).map(|c| (be32(c), be32(&c[4..]), be32(&c[8..]))).collect()
                }
            }
            _ => u.unknown.push(RawAttr { flags, code, value: v.to_vec() }),
        }
    }
    let mp = u.mp_reach.as_ref().map_or(false, |r| !r.nlri.is_empty());
    if !u.nlri.is_empty() || mp {
        let missing = [(1u8, !seen[1]), (2, !seen[2]), (3, !u.nlri.is_empty() && !seen[3]), (5, cx.internal && !seen[5])];
        for (code, m) in missing {
            if m {
                u.faults.push(Fault { code, what: "missing", action: Action::Withdraw });
            }
        }
    }
    Ok(u)
}

fn open(m: &[u8]) -> Result<Open, Error> {
    if m.len() < 10 {
        return Err(Error(1, 2));
    }
    let ol = m[9] as usize;
    if m.len() != 10 + ol {
        return Err(Error(2, 0));
    }
    let (version, my_as, hold, id) = (m[0], be16(&m[1..]), be16(&m[3..]), ip4(&m[5..]));
    if version != 4 {
        return Err(Error(2, 1));
    }
    if my_as == 0 {
        return Err(Error(2, 2));
    }
    if hold == 1 || hold == 2 {
        return Err(Error(2, 6));
    }
    if id.is_unspecified() {
        return Err(Error(2, 3));
    }
    let mut caps = Vec::new();
    let mut p = &m[10..];
    while !p.is_empty() {
        if p.len() < 2 || p.len() < 2 + p[1] as usize {
            return Err(Error(2, 0));
        }
        let (t, body) = (p[0], &p[2..2 + p[1] as usize]);
        p = &p[2 + p[1] as usize..];
        if t != 2 {
            return Err(Error(2, 4));
        }
        let mut c = body;
        while !c.is_empty() {
            if c.len() < 2 || c.len() < 2 + c[1] as usize {
                return Err(Error(2, 0));
            }
            let v = &c[2..2 + c[1] as usize];
            caps.push(match (c[0], v.len()) {
                (1, 4) => Capability::Multiprotocol { afi: be16(v), safi: v[3] },
                (65, 4) => Capability::As4(be32(v)),
                (code, _) => Capability::Other { code, value: v.to_vec() },
            });
            c = &c[2 + v.len()..];
        }
    }
    Ok(Open { version, my_as, hold, id, caps })
}

/// one message from the head of `b`: its length and the message.
pub fn message(b: &[u8], cx: &Context) -> Option<(usize, Result<Message, Error>)> {
    if b.len() < 19 {
        return None;
    }
    let l = be16(&b[16..]) as usize;
    if b[..16] != [0xFF; 16] {
        return Some((b.len(), Err(Error(1, 1))));
    }
    if !(19..=4096).contains(&l) {
        return Some((b.len(), Err(Error(1, 2))));
    }
    if l > b.len() {
        return None;
    }
    let body = &b[19..l];
    let m = match b[18] {
        1 => open(body).map(Message::Open),
        2 => update(body, cx).map(Message::Update),
        3 if body.len() >= 2 => Ok(Message::Notification { code: body[0], subcode: body[1], data: body[2..].to_vec() }),
        4 if body.is_empty() => Ok(Message::Keepalive),
        5 if body.len() == 4 => Ok(Message::RouteRefresh { afi: be16(body), subtype: body[2], safi: body[3] }),
        3 | 4 | 5 => Err(Error(1, 2)),
        _ => Err(Error(1, 3)),
    };
    Some((l, m))
}
